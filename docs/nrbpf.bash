# Made by .ci/manual from the help of nrbpf: change help.rt and commands/ of crates/nrbpf/src, not this file.
# Completes commands, options and paths of nrbpf in bash:  . docs/nrbpf.bash
_nrbpf() {
    local word=${COMP_WORDS[COMP_CWORD]} before=${COMP_WORDS[COMP_CWORD - 1]} words at=1
    if [ "$COMP_CWORD" -eq 2 ] && [ "$before" = -C ]; then
        COMPREPLY=($(compgen -d -- "$word"))
        return
    fi
    if [ "${COMP_WORDS[1]}" = -C ]; then at=3; fi
    if [ "$COMP_CWORD" -le "$at" ]; then
        words='check explain asm dis encode decode run serve replay schedule stress help -C -h --help -V --version'
        COMPREPLY=($(compgen -W "$words" -- "$word"))
        return
    fi
    case ${COMP_WORDS[at]}:$before in
        replay:--spare | schedule:--limit | schedule:--nodes | schedule:--slots | schedule:--spare | schedule:--window | serve:--spare | stress:--limit | stress:--nodes | stress:--pipeline | stress:--slots | stress:--spare | stress:--window) COMPREPLY=(); return ;;
    esac
    case ${COMP_WORDS[at]} in
        check) words='--large --maps -h --help' ;;
        explain) words='--graph --json --large --maps -h --help' ;;
        asm) words='-o --output --explain -h --help' ;;
        dis) words='--slots -h --help' ;;
        encode) words='-h --help' ;;
        decode) words='-h --help' ;;
        run) words='--large --load --dump --calls --signed -h --help' ;;
        serve) words='--spare --calls --large --load --dump -h --help' ;;
        replay) words='--spare --large --load --history --explain -h --help' ;;
        schedule) words='--nodes --slots --window --limit --spare --large --explain --lanes -h --help' ;;
        stress) words='--nodes --slots --window --limit --spare --large --load --dump --history --pipeline --stats -h --help' ;;
        help) words='check explain asm dis encode decode run serve replay schedule stress' ;;
        *) words= ;;
    esac
    case $word in
        -*) COMPREPLY=($(compgen -W "$words" -- "$word")) ;;
        *) if [ "${COMP_WORDS[at]}" = help ]; then COMPREPLY=($(compgen -W "$words" -- "$word")); else COMPREPLY=($(compgen -f -- "$word")); fi ;;
    esac
}
complete -o filenames -F _nrbpf nrbpf ./nrbpf
_nrbpf_c2hex() {
    local word=${COMP_WORDS[COMP_CWORD]} before=${COMP_WORDS[COMP_CWORD - 1]}
    case $before:$word in
        -o:*) COMPREPLY=($(compgen -d -- "$word")) ;;
        *:-*) COMPREPLY=($(compgen -W '-o --lines' -- "$word")) ;;
        *) COMPREPLY=($(compgen -f -X '!*.c' -- "$word") $(compgen -d -- "$word")) ;;
    esac
}
complete -o filenames -F _nrbpf_c2hex nrbpf-c2hex c/c2hex
_nrbpf_manifest2h() {
    local word=${COMP_WORDS[COMP_CWORD]} before=${COMP_WORDS[COMP_CWORD - 1]}
    case $before:$word in
        -o:*) COMPREPLY=($(compgen -f -- "$word")) ;;
        --name:*) COMPREPLY=() ;;
        --types:*) COMPREPLY=() ;;
        *:-*) COMPREPLY=($(compgen -W '-o --name --types' -- "$word")) ;;
        *) COMPREPLY=($(compgen -f -- "$word")) ;;
    esac
}
complete -o filenames -F _nrbpf_manifest2h nrbpf-manifest2h c/manifest2h
