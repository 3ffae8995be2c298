# Completion of gltf_show, gltf_repack and gltf_convert for bash 4 or later. It needs nothing else.

# Adds the folders and the files that go on from a word, of the endings that are named.
_gltf_files() {
    local name ending word=$1
    shift
    word=${word#[\"\']}
    word=${word//\\/}
    compopt -o filenames 2> /dev/null
    while IFS= read -r name; do
        if [[ -d $name ]]; then
            COMPREPLY+=("$name")
            continue
        fi
        for ending; do
            if [[ ${name,,} == *".$ending" ]]; then
                COMPREPLY+=("$name")
            fi
        done
    done < <(compgen -f -- "$word")
}

# Adds those of the words that go on from a word.
_gltf_words() {
    local found
    while IFS= read -r found; do
        COMPREPLY+=("$found")
    done < <(compgen -W "$2" -- "$1")
}

# The options of `inspect` that fit those that are there.
_gltf_options() {
    local word given=" ${COMP_WORDS[*]:2} "
    for word in --no-files --outside --json --pretty --html; do
        [[ $given == *" $word "* ]] && continue
        case $word in
            --no-files) [[ $given == *" --outside "* ]] && continue ;;
            --outside) [[ $given == *" --no-files "* ]] && continue ;;
            --html) [[ $given == *" --json "* || $given == *" --pretty "* ]] && continue ;;
            --json | --pretty) [[ $given == *" --html "* ]] && continue ;;
        esac
        echo "$word"
    done
}

# Adds the files, or behind so many words the flags that are not there yet.
_gltf_taken() {
    local given=" ${COMP_WORDS[*]:3} " flags=
    if ((COMP_CWORD == 2)); then
        _gltf_files "$2" glb gltf
    elif ((COMP_CWORD > $1)) && [[ $2 == -* ]]; then
        [[ $given == *" --extensions"[=\ ]* ]] || flags="--extensions"
        [[ $given == *" --lenient "* ]] || flags+=" --lenient"
        _gltf_words "$2" "$flags"
    fi
}

_gltf_show() {
    local word=${COMP_WORDS[COMP_CWORD]}
    COMPREPLY=()
    if ((COMP_CWORD == 1)); then
        _gltf_words "$word" "chunks check indices inspect"
        return
    fi
    case ${COMP_WORDS[1]} in
        chunks) ((COMP_CWORD == 2)) && _gltf_files "$word" glb ;;
        check) _gltf_taken 2 "$word" ;;
        indices) _gltf_taken 4 "$word" ;;
        inspect)
            if [[ $word == -* ]]; then
                _gltf_words "$word" "$(_gltf_options)"
            else
                _gltf_files "$word" glb gltf
            fi
            ;;
    esac
}

_gltf_repack() {
    COMPREPLY=()
    ((COMP_CWORD <= 2)) && _gltf_files "${COMP_WORDS[COMP_CWORD]}" glb gltf
}

# The flags of `gltf_convert` that fit the second name and are not there yet.
_gltf_flags() {
    local word given=" ${COMP_WORDS[*]:3} "
    for word in --keep-images --keep-missing-images --drop-image-views --pretty --keep-unknown \
        --outside --force; do
        [[ $given == *" $word "* ]] && continue
        case $word in
            --drop-image-views | --pretty | --force)
                [[ ${COMP_WORDS[2],,} != *.gltf ]] && continue
                ;;
        esac
        case $word in
            --keep-images)
                [[ $given == *" --drop-image-views "* ]] && continue
                [[ $given == *" --keep-missing-images "* ]] && continue
                ;;
            --drop-image-views | --keep-missing-images)
                [[ $given == *" --keep-images "* ]] && continue
                ;;
        esac
        echo "$word"
    done
}

_gltf_convert() {
    local word=${COMP_WORDS[COMP_CWORD]}
    COMPREPLY=()
    case $COMP_CWORD in
        1 | 2) _gltf_files "$word" glb gltf ;;
        *) _gltf_words "$word" "$(_gltf_flags)" ;;
    esac
}

complete -F _gltf_show gltf_show
complete -F _gltf_repack gltf_repack
complete -F _gltf_convert gltf_convert
