# bash completion for clockbed: made by tools/completions.py
_clockbed_offer() {
  local word=${COMP_WORDS[COMP_CWORD]}
  if [[ $word = -* ]]; then
    mapfile -t COMPREPLY < <(compgen -W "$1" -- "$word")
  elif [ "${2:-}" = files ]; then
    mapfile -t COMPREPLY < <(compgen -f -- "$word")
  fi
}

_clockbed() {
  COMPREPLY=()
  if [ "$COMP_CWORD" -le 1 ]; then
    mapfile -t COMPREPLY < <(compgen -W "exec asm compile dis verify run stress sweep explore prove help --help --version" -- "${COMP_WORDS[COMP_CWORD]}")
    return
  fi
  case ${COMP_WORDS[1]}:${COMP_WORDS[COMP_CWORD - 1]} in
    compile:--faults | compile:--memory | compile:--modulus | compile:--nodes | dis:--faults | dis:--modulus | dis:--node | dis:--nodes | exec:--coin | exec:--contents | exec:--fuel | exec:--id | exec:--mail | exec:--memory | exec:--nodes | explore:--ask | explore:--bytes | explore:--cells | explore:--claims | explore:--depth | explore:--graph | explore:--images | explore:--mail | explore:--memory | explore:--odds | explore:--reach | explore:--said | explore:--start | explore:--states | prove:--claims | prove:--rule | run:--claims | run:--from | run:--trace | run:--until | run:--workers | stress:--loaders | stress:--loads | stress:--pulses | stress:--workers | sweep:--claims | sweep:--keys | sweep:--workers | verify:--memory | verify:--nodes) return ;;
  esac
  case ${COMP_WORDS[1]} in
    exec) _clockbed_offer "--nodes --memory --text --fuel --id --mail --coin --contents --show --trace --help" files ;;
    asm) _clockbed_offer "--list --help" files ;;
    compile) _clockbed_offer "--nodes --memory --faults --modulus --list --c --help" files ;;
    dis) _clockbed_offer "--list --clock --nodes --faults --modulus --node --help" files ;;
    verify) _clockbed_offer "--nodes --memory --text --explain --all --help" files ;;
    run) _clockbed_offer "--workers --check --json --from --until --trace --claims --help" files ;;
    stress) _clockbed_offer "--loaders --loads --pulses --workers --help" ;;
    sweep) _clockbed_offer "--keys --workers --claims --help" files ;;
    explore) _clockbed_offer "--ask --mail --start --bytes --cells --images --said --states --depth --memory --odds --reach --graph --json --claims --help" files ;;
    prove) _clockbed_offer "--rule --claims --help" files ;;
  esac
}

complete -o filenames -F _clockbed clockbed
