# Completion of mplsnet and its tools for bash: 'source completions/mplsnet.bash', or copy this file as 'mplsnet' into
# ~/.local/share/bash-completion/completions/ (and link the names of the tools to it there, as 'make install' does).

# Folders, and files that end in one of the given ways; all files where none is given.
_mplsnet_files() {
    local word=$1 ending name
    shift
    compopt -o filenames 2>/dev/null
    COMPREPLY=()
    while IFS= read -r name; do
        if [[ -d $name || $# -eq 0 ]]; then
            COMPREPLY+=("$name")
            continue
        fi
        for ending in "$@"; do
            [[ $name == *"$ending" ]] && COMPREPLY+=("$name")
        done
    done < <(compgen -f -- "$word")
}

_mplsnet_folders() {
    local name
    compopt -o filenames 2>/dev/null
    COMPREPLY=()
    while IFS= read -r name; do COMPREPLY+=("$name"); done < <(compgen -d -- "$1")
}

_mplsnet_words() {
    mapfile -t COMPREPLY < <(compgen -W "$1" -- "$2")
}

# How many words stand before this one that are neither options nor the values of the options given.
_mplsnet_place() {
    local at place=0 option
    for ((at = 1; at < COMP_CWORD; at++)); do
        [[ ${COMP_WORDS[at]} == -* ]] && continue
        for option in "$@"; do [[ ${COMP_WORDS[at - 1]} == "$option" ]] && continue 2; done
        ((place++))
    done
    echo "$place"
}

# The first word that is neither an option nor the value of one of the options given.
_mplsnet_first() {
    local at option
    for ((at = 1; at < COMP_CWORD; at++)); do
        [[ ${COMP_WORDS[at]} == -* ]] && continue
        for option in "$@"; do [[ ${COMP_WORDS[at - 1]} == "$option" ]] && continue 2; done
        echo "${COMP_WORDS[at]}"
        return
    done
}

_mplsnet() {
    local word=${COMP_WORDS[COMP_CWORD]}
    COMPREPLY=()
    case $COMP_CWORD:${COMP_WORDS[1]} in
        1:-*) _mplsnet_words '--help --version' "$word" ;;
        1:*) _mplsnet_words 'run check generate flood reflect join reach' "$word" ;;
        2:run | 2:check | 2:flood | 2:reflect | 2:reach | [23]:join) _mplsnet_files "$word" .toml ;;
        3:run | 3:flood | 3:reflect | 3:reach | [45]:join) _mplsnet_files "$word" ;;
        4:run | 6:join) _mplsnet_files "$word" .pcap ;;
        5:run | 7:join) _mplsnet_folders "$word" ;;
    esac
}

_mplsnet_draw() {
    local word=${COMP_WORDS[COMP_CWORD]}
    COMPREPLY=()
    case ${COMP_WORDS[COMP_CWORD - 1]} in
        --report) _mplsnet_files "$word"; return ;;
        --svg) _mplsnet_files "$word" .svg; return ;;
        --png) _mplsnet_files "$word" .png; return ;;
        --layout) _mplsnet_words 'dot neato fdp circo circle' "$word"; return ;;
        --packet | --vpn | --down) return ;;
    esac
    if [[ $word == -* ]]; then
        _mplsnet_words '--help --report --packet --svg --png --layout --vpn --no-sites --down' "$word"
    else
        _mplsnet_files "$word" .toml
    fi
}

_mplsnet_wireshark() {
    local word=${COMP_WORDS[COMP_CWORD]}
    COMPREPLY=()
    case ${COMP_WORDS[COMP_CWORD - 1]} in
        --topology) _mplsnet_files "$word" .toml; return ;;
        --report) _mplsnet_files "$word"; return ;;
    esac
    if [[ $word == -* ]]; then
        _mplsnet_words '--help --topology --report' "$word"
        return
    fi
    case $(_mplsnet_place --topology --report) in
        0) _mplsnet_folders "$word" ;;
        1) _mplsnet_files "$word" .pcap ;;
    esac
}

_mplsnet_play() {
    local word=${COMP_WORDS[COMP_CWORD]}
    COMPREPLY=()
    case ${COMP_WORDS[COMP_CWORD - 1]} in
        --report) _mplsnet_files "$word"; return ;;
        --script) _mplsnet_files "$word"; return ;;
        --capture) _mplsnet_files "$word" .pcap; return ;;
        --layout) _mplsnet_words 'auto spread circle rings' "$word"; return ;;
        --from | --to | --packet | --at) return ;;
    esac
    if [[ $word == -* ]]; then
        _mplsnet_words '--help --report --capture --script --layout --from --to --packet --svg --at' "$word"
        return
    fi
    local folders place options=(--report --capture --script --layout --from --to --packet --at)
    place=$(_mplsnet_place "${options[@]}")
    case $place:$(_mplsnet_first "${options[@]}") in
        0:*)
            _mplsnet_folders "$word"
            folders=("${COMPREPLY[@]}")
            _mplsnet_words 'flood reflect join' "$word"
            COMPREPLY+=("${folders[@]}")
            ;;
        1:flood | 1:reflect | [12]:join) _mplsnet_files "$word" .toml ;;
        2:flood | 2:reflect | [34]:join) _mplsnet_files "$word" ;;
        5:join) _mplsnet_files "$word" .pcap ;;
        3:flood | 3:reflect | 6:join) _mplsnet_files "$word" .html ;;
        1:*) _mplsnet_files "$word" .toml ;;
        2:*) _mplsnet_files "$word" .html .svg ;;
    esac
}

_mplsnet_decode() {
    local word=${COMP_WORDS[COMP_CWORD]}
    if [[ $word == -* ]]; then
        _mplsnet_words '--help' "$word"
    else
        _mplsnet_folders "$word"
    fi
}

_mplsnet_lint() {
    local word=${COMP_WORDS[COMP_CWORD]}
    COMPREPLY=()
    if [[ $word == -* ]]; then
        _mplsnet_words '--help --strict' "$word"
        return
    fi
    case $(_mplsnet_place) in
        0) _mplsnet_files "$word" .toml ;;
        1) _mplsnet_files "$word" ;;
        2) _mplsnet_files "$word" .pcap ;;
    esac
}

_mplsnet_run() {
    local word=${COMP_WORDS[COMP_CWORD]}
    COMPREPLY=()
    if [[ ${COMP_WORDS[COMP_CWORD - 1]} == --program ]]; then
        _mplsnet_files "$word"
        return
    fi
    if [[ $word == -* ]]; then
        _mplsnet_words '--help --program' "$word"
        return
    fi
    case $(_mplsnet_place --program) in
        0) _mplsnet_files "$word" .toml ;;
        1) _mplsnet_files "$word" ;;
        2) _mplsnet_files "$word" .pcap ;;
        3) _mplsnet_folders "$word" ;;
    esac
}

_mplsnet_whatif() {
    local word=${COMP_WORDS[COMP_CWORD]}
    COMPREPLY=()
    case ${COMP_WORDS[COMP_CWORD - 1]} in
        --of) _mplsnet_words 'links nodes ldp bgp' "$word"; return ;;
        --html) _mplsnet_files "$word" .html; return ;;
        --program | --resume) _mplsnet_files "$word"; return ;;
        --only | --site | --check | --seed | --budget | --jobs | --dask) return ;;
    esac
    if [[ $word == -* ]]; then
        local plain='--help --of --double --triple --only --site --keep-bgp --resolve --no-resolve --json --csv --matrix --all --html --resume --simulate --check --seed'
        _mplsnet_words "$plain --budget --jobs --dask --program --quiet" "$word"
    else
        _mplsnet_files "$word" .toml
    fi
}

_mplsnet_orders() {
    local word=${COMP_WORDS[COMP_CWORD]}
    COMPREPLY=()
    case ${COMP_WORDS[COMP_CWORD - 1]} in
        --of) _mplsnet_words 'links nodes ldp bgp' "$word"; return ;;
        --ask) _mplsnet_words 'loops window orders' "$word"; return ;;
        --html) _mplsnet_files "$word" .html; return ;;
        --script) _mplsnet_folders "$word"; return ;;
        --program) _mplsnet_files "$word"; return ;;
        --only | --site | --every | --delays | --runs | --orders | --seed | --budget | --jobs | --dask) return ;;
    esac
    if [[ $word == -* ]]; then
        _mplsnet_words '--help --of --ask --only --site --down --up --no-resolve --no-witness --every --delays --runs --orders --seed --json --csv --all --script --html --budget --jobs --dask --program --quiet' "$word"
    else
        _mplsnet_files "$word" .toml
    fi
}

_mplsnet_expect() {
    local word=${COMP_WORDS[COMP_CWORD]}
    COMPREPLY=()
    case ${COMP_WORDS[COMP_CWORD - 1]} in
        --junit) _mplsnet_files "$word" .xml; return ;;
        --program) _mplsnet_files "$word"; return ;;
        --budget | --jobs) return ;;
    esac
    if [[ $word == -* ]]; then
        _mplsnet_words '--help --json --all --junit --simulate --budget --jobs --program --quiet' "$word"
        return
    fi
    case $(_mplsnet_place --junit --budget --jobs --program) in
        0) _mplsnet_files "$word" .toml ;;
        1) _mplsnet_files "$word" ;;
    esac
}

_mplsnet_why() {
    local word=${COMP_WORDS[COMP_CWORD]}
    COMPREPLY=()
    case ${COMP_WORDS[COMP_CWORD - 1]} in
        --report | --script) _mplsnet_files "$word"; return ;;
        --capture) _mplsnet_files "$word" .pcap; return ;;
    esac
    if [[ $word == -* ]]; then
        _mplsnet_words '--help --all --each --json --report --script --capture' "$word"
        return
    fi
    case $(_mplsnet_place --report --script --capture) in
        0) _mplsnet_folders "$word" ;;
        1) _mplsnet_files "$word" .toml ;;
    esac
}

_mplsnet_report() {
    local word=${COMP_WORDS[COMP_CWORD]}
    COMPREPLY=()
    if [[ ${COMP_WORDS[COMP_CWORD - 1]} == --report ]]; then
        _mplsnet_files "$word"
    elif [[ $word == -* ]]; then
        _mplsnet_words '--help --csv --json --report' "$word"
    elif [[ $(_mplsnet_place --report) == 0 ]]; then
        _mplsnet_folders "$word"
    else
        _mplsnet_words 'packets steps labels messages sessions frames deliveries tables refused' "$word"
    fi
}

_mplsnet_diff() {
    local word=${COMP_WORDS[COMP_CWORD]}
    COMPREPLY=()
    case ${COMP_WORDS[COMP_CWORD - 1]} in
        --topology) _mplsnet_files "$word" .toml; return ;;
        --capture) _mplsnet_files "$word" .pcap; return ;;
    esac
    if [[ $word == -* ]]; then
        _mplsnet_words '--help --topology --capture --all' "$word"
    else
        _mplsnet_folders "$word"
    fi
}

_mplsnet_new() {
    local word=${COMP_WORDS[COMP_CWORD]}
    COMPREPLY=()
    case ${COMP_WORDS[COMP_CWORD - 1]} in
        --from | --script | --expect) _mplsnet_files "$word"; return ;;
        --topology) _mplsnet_files "$word" .toml; return ;;
        --capture) _mplsnet_files "$word" .pcap; return ;;
        --form) _mplsnet_words 'topology short netlab containerlab frr' "$word"; return ;;
        --family) _mplsnet_words 'ring mesh waxman fat-tree' "$word"; return ;;
        --random | --generated | --size | --edges | --vpns | --vpn | --maintain) return ;;
    esac
    _mplsnet_words '--help --from --random --generated --form --family --size --edges --vpns --vpn --all --topology --script --capture --expect --maintain' "$word"
}

_mplsnet_read() {
    local word=${COMP_WORDS[COMP_CWORD]}
    COMPREPLY=()
    if [[ $word == -* ]]; then
        _mplsnet_words '--help --hex --json' "$word"
        return
    fi
    case $(_mplsnet_place) in
        0) _mplsnet_words 'ldp bgp' "$word" ;;
        1) _mplsnet_files "$word" ;;
    esac
}

_mplsnet_lab() {
    local word=${COMP_WORDS[COMP_CWORD]} what=${COMP_WORDS[1]} place
    COMPREPLY=()
    if ((COMP_CWORD == 1)); then
        if [[ $word == -* ]]; then _mplsnet_words '--help' "$word"; else _mplsnet_words 'export collect compare' "$word"; fi
        return
    fi
    case ${COMP_WORDS[COMP_CWORD - 1]} in
        --form) _mplsnet_words 'containerlab netlab frr' "$word"; return ;;
        --only) _mplsnet_words 'adjacencies trees ldp bindings labels sessions vpn paths routes pairs' "$word"; return ;;
        --html) _mplsnet_files "$word" .html; return ;;
        --program) _mplsnet_files "$word"; return ;;
        --name | --image | --tag | --host-image | --reflector | --shell | --router | --down) return ;;
    esac
    if [[ $word == -* ]]; then
        case $what in
            export) _mplsnet_words '--help --form --name --image --tag --host-image --reflector' "$word" ;;
            collect) _mplsnet_words '--help --shell --router' "$word" ;;
            compare) _mplsnet_words '--help --down --only --json --html --program --reflector' "$word" ;;
        esac
        return
    fi
    place=$(_mplsnet_place --form --only --html --program --name --image --tag --host-image --reflector --shell --router --down)
    case $what:$place in
        export:1 | compare:1) _mplsnet_files "$word" .toml ;;
        export:2 | compare:2 | collect:[12]) _mplsnet_folders "$word" ;;
    esac
}

complete -F _mplsnet mplsnet mplsnet-trial
complete -F _mplsnet_lab mplsnet-lab
complete -F _mplsnet_lint mplsnet-lint
complete -F _mplsnet_run mplsnet-run
complete -F _mplsnet_draw mplsnet-draw
complete -F _mplsnet_wireshark mplsnet-wireshark
complete -F _mplsnet_play mplsnet-play
complete -F _mplsnet_decode mplsnet-decode
complete -F _mplsnet_whatif mplsnet-whatif
complete -F _mplsnet_orders mplsnet-orders
complete -F _mplsnet_expect mplsnet-expect
complete -F _mplsnet_why mplsnet-why
complete -F _mplsnet_report mplsnet-report
complete -F _mplsnet_diff mplsnet-diff
complete -F _mplsnet_new mplsnet-new
complete -F _mplsnet_read mplsnet-read
