"""Heads of encrypted volumes. Where a tool that makes them is there, it makes one; the others are written by their specifications."""

import json
import os
import shutil
import struct
import subprocess
import tempfile
import unittest

from reraid_try.evidence import encryption

CRYPTSETUP = shutil.which("cryptsetup", path=os.environ.get("PATH", "") + ":/usr/sbin:/sbin") or ""


def reader(data: bytes) -> encryption.Read:
    """Reads of some bytes, as of a volume."""
    return lambda place, count: data[place:place + count]


def luks1_head() -> bytes:
    """A head of LUKS1, by its specification."""
    head = struct.pack(">6sH32s32s32sII", b"LUKS\xba\xbe", 1, b"aes", b"xts-plain64", b"sha256", 4096, 64)
    return head.ljust(168, b"\0") + b"6ad5ab06-1a4c-47fb-9a36-f4ebb2b13ec1".ljust(40, b"\0") + bytes(4096)


def luks2_head(segment: dict[str, str]) -> bytes:
    """A head of LUKS2, by its specification, with an area of JSON."""
    head = struct.pack(">6sHQ", b"LUKS\xba\xbe", 2, 16384).ljust(168, b"\0") + b"name-of-this-one".ljust(40, b"\0")
    return head.ljust(4096, b"\0") + json.dumps({"segments": {"0": segment}}).encode().ljust(12288, b"\0")


class Heads(unittest.TestCase):
    """What `detect` says."""

    def found(self, data: bytes, length: int | None = None) -> encryption.Encryption:
        """What is found, where something is."""
        found = encryption.detect(reader(data), length)
        assert found, "nothing was found"
        return found

    def test_luks1(self) -> None:
        """Cipher, identifier and first byte stand at the places of the specification."""
        found = self.found(luks1_head())
        self.assertEqual(found.kind, "LUKS1")
        self.assertEqual(found.identifier, "6ad5ab06-1a4c-47fb-9a36-f4ebb2b13ec1")
        self.assertEqual(found.detail, "aes-xts-plain64")
        self.assertEqual(found.data, 4096 * 512)

    def test_luks1_apart_from_its_data(self) -> None:
        """A head that lies elsewhere than its data tells no first byte of them."""
        head = luks1_head()
        self.assertIsNone(self.found(head[:104] + bytes(4) + head[108:]).data)

    def test_luks2(self) -> None:
        """Cipher and first byte stand in the JSON."""
        found = self.found(luks2_head({"offset": "16777216", "encryption": "aes-xts-plain64"}))
        self.assertEqual((found.kind, found.identifier, found.detail, found.data), ("LUKS2", "name-of-this-one", "aes-xts-plain64", 16777216))

    def test_luks2_with_torn_json(self) -> None:
        """A head whose second chunk is another's is a head still, of which less is known."""
        found = self.found(luks2_head({})[:4096] + b"\xff" * 12288)
        self.assertEqual((found.kind, found.detail, found.data), ("LUKS2", "", None))

    def test_luks_of_no_version(self) -> None:
        """A magic alone is no head."""
        self.assertIsNone(encryption.detect(reader(b"LUKS\xba\xbe\0\x07" + bytes(4096))))

    def test_bitlocker(self) -> None:
        """The signature of Windows 7 and later, and that of removable disks with its identifier."""
        self.assertEqual(self.found(b"\xeb\x58\x90-FVE-FS-" + bytes(4096)).kind, "BitLocker")
        to_go = b"\xeb\x58\x90MSWIN4.1".ljust(424, b"\0") + bytes.fromhex("3bd66749292ed84a8399f6a339e3d001") + bytes(4096)
        self.assertEqual(self.found(to_go).kind, "BitLocker To Go")
        self.assertIsNone(encryption.detect(reader(b"\xeb\x58\x90MSWIN4.1" + bytes(4096))))

    def test_file_vault(self) -> None:
        """Version, kind of block and signature of a Core Storage volume."""
        head = bytes(8) + b"\x01\0\x10\0" + bytes(76) + b"CS" + bytes(4096)
        self.assertEqual(self.found(head).kind, "FileVault 2 (Core Storage)")
        self.assertIsNone(encryption.detect(reader(bytes(88) + b"CS" + bytes(4096))))

    def test_geli(self) -> None:
        """The last sector tells, of a length in whole sectors or not."""
        data = bytes(8192) + b"GEOM::ELI" + bytes(503)
        self.assertEqual(self.found(data, len(data)).kind, "GELI of FreeBSD")
        self.assertEqual(self.found(data + b"tail", len(data) + 4).kind, "GELI of FreeBSD")
        self.assertIsNone(encryption.detect(reader(data)))
        self.assertEqual(self.found(data[8192:], 512).kind, "GELI of FreeBSD")

    def test_nothing(self) -> None:
        """Zeros, a short volume and a file system are not encrypted."""
        for data in (b"", bytes(512), b"XFSB" + bytes(8192), b"\xebR\x90NTFS    " + bytes(8192)):
            self.assertIsNone(encryption.detect(reader(data), len(data)))

    def test_line(self) -> None:
        """What is said names the kind and what is known besides."""
        self.assertEqual(encryption.Encryption("BitLocker", ()).line(), "encrypted: BitLocker")
        self.assertEqual(encryption.Encryption("LUKS1", (), "abc", "aes").line(), "encrypted: LUKS1 (aes, identifier abc)")

    @unittest.skipUnless(CRYPTSETUP, "cryptsetup is not there")
    def test_cryptsetup(self) -> None:
        """What `cryptsetup` makes is known, with the identifier that it says itself."""
        for kind in ("luks1", "luks2"):
            with self.subTest(kind), tempfile.NamedTemporaryFile() as file:
                file.truncate(20 << 20)
                words = [CRYPTSETUP, "-q", "luksFormat", "--type", kind, "--pbkdf", "pbkdf2", "--pbkdf-force-iterations", "1000", file.name, "-"]
                made = subprocess.run(words, input=b"secret", capture_output=True, check=False)
                if made.returncode:
                    self.skipTest(made.stderr.decode(errors="replace"))
                named = subprocess.run([CRYPTSETUP, "luksUUID", file.name], capture_output=True, check=True).stdout.decode().strip()
                data = file.read()
                found = self.found(data, len(data))
                self.assertEqual((found.kind.lower(), found.identifier), (kind, named))
                self.assertIn("aes-xts-plain64", found.detail)
                self.assertGreater(found.data or 0, 0)


if __name__ == "__main__":
    unittest.main()
