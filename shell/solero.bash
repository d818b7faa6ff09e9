# Completes the words of ./run in bash, which reads this file by `source`. .ci/shell writes it.
_solero() {
    local word=${COMP_WORDS[COMP_CWORD]} before=${COMP_WORDS[COMP_CWORD - 1]}
    local program=solero values=
    local solero='--mode --threads --order --memory --workers --turn --events --size --seed
        --steps --turns --prints --heap --elide --range --what --page --tries --proved
        --checked --help --version'
    local explain='--threads --order --steps --turns --prints --heap --elide --range --what --from
        --events --fold --states --forbid --expect --page --commit --json --proved
        --checked --help --version'
    [[ " ${COMP_WORDS[*]} " != *" --what"* ]] || program=explain
    case $program:$before in
        solero:--mode) values='replay run mark list asm record load cell' ;;
        solero:--threads) values='0 1 2 3 4 5 6 7 8' ;;
        solero:--order) values='' ;;
        solero:--memory) values='table locked' ;;
        solero:--workers) values='1 2 3 4 5 6 7 8' ;;
        solero:--turn) values='' ;;
        solero:--events) values='' ;;
        solero:--size) values='' ;;
        solero:--seed) values='' ;;
        solero:--steps) values='' ;;
        solero:--turns) values='' ;;
        solero:--prints) values='' ;;
        solero:--heap) values='' ;;
        solero:--elide) values='on off' ;;
        solero:--range) values='' ;;
        solero:--what) values='run marks outcomes refusal' ;;
        solero:--tries) values='' ;;
        explain:--threads) values='0 1 2 3 4 5 6 7 8' ;;
        explain:--order) values='' ;;
        explain:--steps) values='' ;;
        explain:--turns) values='' ;;
        explain:--prints) values='' ;;
        explain:--heap) values='' ;;
        explain:--elide) values='on off' ;;
        explain:--range) values='' ;;
        explain:--what) values='run marks outcomes refusal' ;;
        explain:--from) values='' ;;
        explain:--events) values='' ;;
        explain:--fold) values='on off' ;;
        explain:--states) values='' ;;
        explain:--forbid) values='' ;;
        explain:--expect) values='' ;;
        explain:--commit) values='' ;;
        *)
            if [[ $word != -* ]]; then
                mapfile -t COMPREPLY < <(compgen -f -X '!*.class' -- "$word"; compgen -d -- "$word")
                return
            fi
            values=${!program}
            ;;
    esac
    mapfile -t COMPREPLY < <(compgen -W "$values" -- "$word")
}
complete -o filenames -F _solero ./run
