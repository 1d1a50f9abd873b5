# Completion of bash for reraid, reraid-nbd, reraid-mount, reraid-try and reraid-ranges: commands, operands and their values, set words
# part by part, options, and names of files where images stand. Where nothing goes on from a word, what is mostly meant by it is put in its
# place (`la` for left-asymmetric, 128 for 64K), or a line says what is expected.

# _reraid_words: the words up to the cursor as they stand on the line, in `words`, the last of them in `word`
_reraid_words() {
    local line=${COMP_LINE:0:COMP_POINT}
    read -ra words <<<"$line"
    [[ $line != *[[:blank:]] ]] || words+=("")
    word=${words[-1]}
}

# _reraid_files: names of files, as bash completes them by itself
_reraid_files() {
    COMPREPLY=()
    compopt -o default
}

# _reraid_offer CHOICE..: the choices that go on from the word. Readline replaces only what stands after the last character at which it
# breaks words, so what is before that is taken off.
_reraid_offer() {
    local breaks=${COMP_WORDBREAKS//[^=:]/} rest choice
    rest=$word
    [[ -z $breaks ]] || rest=${word##*[$breaks]}
    for choice; do
        [[ $choice == "$word"* ]] || continue
        COMPREPLY+=("${choice#"${word%"$rest"}"}")
        [[ $choice != *[=:] ]] || compopt -o nospace
    done
}

# _reraid_meant NAME: our name for one of mdadm's, or for another that is mostly written; the sectors of a size with a unit; else nothing
_reraid_meant() {
    local units=([107]=2 [109]=2048 [103]=2097152)
    case ${1,,} in
        left-asymmetric) echo la ;;
        right-asymmetric | ddf-zero-restart) echo ra ;;
        left-symmetric) echo ls ;;
        right-symmetric) echo rs ;;
        left-asymmetric-6) echo la-6 ;;
        right-asymmetric-6) echo ra-6 ;;
        left-symmetric-6) echo ls-6 ;;
        right-symmetric-6) echo rs-6 ;;
        parity-0) echo parity-first ;;
        parity-n) echo parity-last ;;
        ddf-n-restart) echo n-restart ;;
        ddf-n-continue) echo n-continue ;;
        raid[056]) echo "${1:4}" ;;
        ext[234]) echo ext ;;
        lvm2) echo lvm ;;
        efi) echo gpt ;;
        *) [[ ! ${1,,} =~ ^([0-9]{1,9})([kmg])(i?b)?$ ]] || echo $((BASH_REMATCH[1] * units[$(printf %d "'${BASH_REMATCH[2]}")])) ;;
    esac
}

# _reraid_say BEFORE LAST TEXT: where nothing goes on from the word, what is meant by its last part is put in its place behind what stands
# before that; or a line says what is expected, which is shown alone, since nothing begins like both choices
_reraid_say() {
    local meant
    ((${#COMPREPLY[@]} == 0)) && [[ -n $3 ]] || return 0
    compopt -o nospace
    meant=$(_reraid_meant "$2")
    if [[ -n $meant ]]; then
        local word=$1$meant
        _reraid_offer "$word"
    else
        COMPREPLY=("expected: $3" " ")
    fi
}

# _reraid_list BEFORE VALUE ELEMENT..: one element more of a list, of those that are not in it
_reraid_list() {
    local before=$1 value=$2 element done
    shift 2
    done=${value%"${value##*,}"}
    compopt -o nospace
    for element; do
        [[ ,$done == *,$element,* ]] || _reraid_offer "$before$done$element"
    done
    _reraid_say "$before$done" "${value##*,}" "$expects"
}

# _reraid_set BEFORE VALUE LEVEL..: the next part of a set word of these levels
_reraid_set() {
    local before=$1 value=$2 parts level choices expects last
    shift 2
    IFS=: read -ra parts <<<"$value:."
    level=${parts[0]}
    [[ $level != @(near|far|offset)[234] || ${#parts[@]} == 2 ]] || parts=("$level" copies none "${parts[@]:1}")
    case ${#parts[@]} in
        2) choices=("$@") expects="LEVEL:PATTERN:ORDER:CHUNK:OFFSET:SLOTS with level 0, 5 or 6, or near2:CHUNK:OFFSET:SLOTS, also with near3, far2, offset2 and so on" ;;
        3) expects="a pattern: la for left-asymmetric, ra, ls, rs, parity-first, parity-last; at level 0 plain" && case $level in
            0) choices=(plain) ;;
            5) choices=(la ra ls rs parity-first parity-last) ;;
            6) choices=(la ra ls rs parity-first parity-last n-restart n-continue la-6 ra-6 ls-6 rs-6 parity-first-6) ;;
        esac ;;
        4) [[ $level == 6 ]] && choices=(after-q by-data by-slot) || choices=(none)
            expects="the order of Q: after-q, by-data or by-slot at level 6, else none" ;;
        5) choices=(8 16 32 64 128 256 512 1024 2048) expects="the chunk in sectors of 512 bytes: 128 for 64 KiB" ;;
        6) choices=(0 2048 262144 264192) expects="the offset in sectors of 512 bytes: 2048 for 1 MiB" ;;
        *) _reraid_say "" "" "the image in each slot, from 0 in the order of their names, or - for a lost disk: 0,1,-,2"
            return ;;
    esac
    last=${value##*:}
    value=${value%"$last"}
    choices=("${choices[@]/%/:}")
    _reraid_offer "${choices[@]/#/$before$value}"
    _reraid_say "$before$value" "$last" "$expects"
}

# _reraid_expects NAME: what values of an operand are
_reraid_expects() {
    case $1 in
        levels) echo "levels of 0,5,6, rising; RAID 4 is 5 with patterns=parity-last, RAID 10 the command mirrors" ;;
        members) echo "numbers from 2 to 24, rising, lost disks too" ;;
        patterns) echo "patterns in this order: plain,la,ra,ls,rs,parity-first,parity-last,n-restart,n-continue,la-6,ra-6,ls-6,rs-6,parity-first-6" ;;
        delays) echo "numbers from 1 to 1024, rising: the rows for which parity stays; 16 with most Smart Array controllers" ;;
        syndromes) echo "orders of Q in this order: none,after-q,by-data,by-slot" ;;
        layouts) echo "layouts in this order: near2,near3,near4,far2,far3,far4,offset2,offset3,offset4" ;;
        chunks) echo "powers of two from 1 to 32768, rising, in sectors of 512 bytes: 128 for 64 KiB" ;;
        offsets | origins) echo "numbers, rising, in sectors of 512 bytes: 2048 for 1 MiB" ;;
        kinds) echo "kinds in this order: gpt,ntfs,xfs,btrfs,lvm,ext,extinode,xfs5,btrfstree,mft" ;;
        window | end | sector | step) echo "a number, in sectors of 512 bytes: 2097152 for 1 GiB" ;;
        drop) echo "IMAGE:SECTOR,IMAGE:SECTOR.., rising" ;;
        missing | foreign | badrows | misfits | least | from | size | span | pages | slot | number | rows | images) echo "a number" ;;
    esac
}

# _reraid_value COMMAND NAME VALUE: values of an operand
_reraid_value() {
    local before=$2= expects
    expects=$(_reraid_expects "$2")
    case $2 in
        set) case $1 in
            mirrorwrite) _reraid_set "$before" "$3" {near,far,offset}{2,3,4} ;;
            nbd) _reraid_set "$before" "$3" 0 5 6 {near,far,offset}{2,3,4} ;;
            *) _reraid_set "$before" "$3" 0 5 6 ;;
        esac ;;
        form) [[ $1 == salvage ]] && _reraid_offer form=data form=lost || _reraid_offer form=text form=json ;;
        maps) _reraid_files ;;
        marks) _reraid_offer marks=none marks=xfs ;;
        mode) _reraid_offer mode=common mode=each ;;
        logical) _reraid_offer logical=512 logical=4096 ;;
        missing) _reraid_offer missing={0,1,2} ;;
        levels) _reraid_list "$before" "$3" 0 5 6 ;;
        members) _reraid_list "$before" "$3" {2..24} ;;
        patterns) _reraid_list "$before" "$3" plain la ra ls rs parity-first parity-last n-restart n-continue la-6 ra-6 ls-6 rs-6 \
            parity-first-6 ;;
        delays) _reraid_list "$before" "$3" 1 2 4 8 16 32 64 ;;
        syndromes) _reraid_list "$before" "$3" none after-q by-data by-slot ;;
        layouts) _reraid_list "$before" "$3" {near,far,offset}{2,3,4} ;;
        chunks) _reraid_list "$before" "$3" 8 16 32 64 128 256 512 1024 2048 ;;
        offsets) if [[ $1 == relations ]]; then
            expects="one for each image, in their order, with + between, in sectors of 512 bytes: 2048+0+2048"
            [[ ! $3 =~ ^[0-9]+(\+[0-9]*)*$ ]] || return
        else
            _reraid_list "$before" "$3" 0 2048 262144 264192
        fi ;;
        kinds) _reraid_list "$before" "$3" gpt ntfs xfs btrfs lvm ext extinode xfs5 btrfstree mft ;;
    esac
    [[ $3 =~ ^[0-9]+$ ]] || _reraid_say "$before" "$3" "$expects"
}

# _reraid_operands COMMAND NAME..: operands that are not given yet, or values of the one at the cursor, or images after `--`
_reraid_operands() {
    local command=$1 name given
    shift
    given=" ${words[*]:1:${#words[@]}-2} "
    if [[ $given == *" -- "* || $given == *[\<\>]" " ]]; then
        [[ $command == sample || $command == classes ]] && [[ $given != *[\<\>]" " ]] || _reraid_files
    elif [[ $word == *=* ]]; then
        for name; do
            [[ $name != "${word%%=*}" ]] || _reraid_value "$command" "$name" "${word#*=}"
        done
    else
        for name; do
            [[ $given == *" $name="* ]] || _reraid_offer "$name="
        done
        _reraid_offer --
    fi
}

_reraid() {
    local words word
    _reraid_words
    COMPREPLY=()
    if ((${#words[@]} == 2)); then
        _reraid_offer survey list check map write rebuild sample classes mirrors mirrorwrite salvage relations help --help --version
        return
    fi
    case ${words[1]} in
        survey) _reraid_operands survey levels members patterns delays syndromes chunks offsets origins missing foreign badrows misfits least \
            window end kinds mode logical drop ;;
        list) _reraid_operands list from size span pages form ;;
        check) _reraid_operands check set ;;
        map) _reraid_operands map set sector end ;;
        write | mirrorwrite) _reraid_operands "${words[1]}" set end ;;
        rebuild) _reraid_operands rebuild set slot end ;;
        sample) _reraid_operands sample number set rows marks ;;
        classes) _reraid_operands classes images end ;;
        mirrors) _reraid_operands mirrors layouts members chunks offsets missing foreign badrows window end from size span ;;
        salvage) _reraid_operands salvage set form end ;;
        relations) _reraid_operands relations from end step offsets form ;;
    esac
}

_reraid_nbd() {
    local words word
    _reraid_words
    COMPREPLY=()
    if ((${#words[@]} == 2)) && [[ $word == --?* ]]; then
        _reraid_offer --help --version
        return
    fi
    _reraid_operands nbd set maps end
}

# The set, without the name of an operand, a folder, and images.
_reraid_mount() {
    local words word options=0
    _reraid_words
    COMPREPLY=()
    while ((options + 2 < ${#words[@]})); do
        case ${words[options + 1]} in
            --no-maps) ((options += 1)) ;;
            --maps | --end) ((options += 2)) ;;
            *) break ;;
        esac
    done
    case $((${#words[@]} - options)) in
        [01]) _reraid_files ;;
        2) if [[ $word == -* ]]; then _reraid_offer --no-maps --maps --end --help --version; else _reraid_set "" "$word" 0 5 6 {near,far,offset}{2,3,4}; fi ;;
        *) _reraid_files ;;
    esac
}

_reraid_try() {
    local words word expects
    _reraid_words
    COMPREPLY=()
    case ${words[-2]} in
        --levels) expects="levels of 0,5,6,10" && _reraid_list "" "$word" 0 5 6 10 ;;
        --members) expects="numbers from 2 to 24, lost disks too" && _reraid_list "" "$word" {2..24} ;;
        --first) [[ $word =~ ^[0-9]+[KMGTkmgt]?$ ]] || COMPREPLY=("expected: a size with K, M, G or T behind it: 16G" " ") ;;
        --time | --every | -j | --case | --examiner) ;;
        *) if [[ $word == -* && ${words[-2]} != --room && ${words[-2]} != --log && ${words[-2]} != --report && ${words[-2]} != --resume ]]; then
            _reraid_offer -v --verbose --json -x -j --members --levels --first --all --time --every --room --log --resume --report --case --examiner --hash --raw \
                --clean --help --version
        else
            _reraid_files
        fi ;;
    esac
}

_reraid_ranges() {
    local words word
    _reraid_words
    COMPREPLY=()
    if ((${#words[@]} == 2)); then
        _reraid_offer split run range join --help --version
    else
        _reraid_files
    fi
}

complete -F _reraid reraid
complete -F _reraid_nbd reraid-nbd
complete -F _reraid_mount reraid-mount
complete -F _reraid_try reraid-try
complete -F _reraid_ranges reraid-ranges
