# Completion of chpc and chpx for bash: source it in ~/.bashrc. Made by bench/shells.
_chpc() {
  local word="${COMP_WORDS[COMP_CWORD]}" at=1 options='' before command
  COMPREPLY=()
  [ "${COMP_WORDS[1]}" = --unproved ] && at=2
  if [ "$COMP_CWORD" -le "$at" ]; then
    [ "$at" = 1 ] && options='--unproved --help --version'
    mapfile -t COMPREPLY < <(compgen -W "check compile expand run simulate bench waves unwave migrate grow $options" -- "$word")
    return
  fi
  command="${COMP_WORDS[at]}"
  before="${COMP_WORDS[COMP_CWORD-1]}"
  # `--order=` comes as two words, and a value behind it as the third
  [ "$before" = '=' ] && before="${COMP_WORDS[COMP_CWORD-2]}"
  [ "$word" = '=' ] && word=''
  case "$command $before" in
    'compile --buffer'|'run --rounds'|'run --buffer'|'simulate --seed'|'simulate --steps'|'bench --seed'|'bench --steps'|'waves --steps') return ;;
    'simulate --power') mapfile -t COMPREPLY < <(compgen -W 'low high' -- "$word"); return ;;
    'simulate --order'|'bench --order') mapfile -t COMPREPLY < <(compgen -W 'lowest oldest newest random' -- "$word"); return ;;
    'bench --peer') mapfile -t COMPREPLY < <(compgen -W 'ramp echo' -- "$word"); return ;;
  esac
  case "$command" in
    check) options='' ;;
    compile) options='--reset --buffer' ;;
    expand) options='' ;;
    run) options='--rounds --buffer' ;;
    simulate) options='--order --seed --steps --power --against --delays' ;;
    bench) options='--peer --order --seed --steps' ;;
    waves) options='--steps --delays --causes' ;;
    unwave) options='' ;;
    migrate) options='' ;;
    grow) options='--sum' ;;
  esac
  if [[ "$word" == -* ]]; then
    mapfile -t COMPREPLY < <(compgen -W "$options" -- "$word")
  else
    mapfile -t COMPREPLY < <(compgen -f -- "$word")
    compopt -o filenames
  fi
}
complete -F _chpc chpc ./chpc
_chpx() {
  local word="${COMP_WORDS[COMP_CWORD]}" at=1 options='' before command
  COMPREPLY=()
  [ "${COMP_WORDS[1]}" = --unproved ] && at=2
  if [ "$COMP_CWORD" -le "$at" ]; then
    [ "$at" = 1 ] && options='--unproved --help --version'
    mapfile -t COMPREPLY < <(compgen -W "check compile expand run simulate bench waves unwave migrate grow why hunt view events cover profile pace buffered stat tree lint sort test link $options" -- "$word")
    return
  fi
  command="${COMP_WORDS[at]}"
  before="${COMP_WORDS[COMP_CWORD-1]}"
  # `--order=` comes as two words, and a value behind it as the third
  [ "$before" = '=' ] && before="${COMP_WORDS[COMP_CWORD-2]}"
  [ "$word" = '=' ] && word=''
  case "$command $before" in
    'compile --buffer'|'run --rounds'|'run --buffer'|'simulate --seed'|'simulate --steps'|'bench --seed'|'bench --steps'|'waves --steps'|'why --steps'|'why --buffer'|'why --until'|'hunt --seeds'|'hunt --mixed'|'hunt --steps'|'view --steps'|'view --until'|'view --causes-of'|'view --latency'|'events --steps'|'events --buffer'|'events --until'|'events --seed'|'events --channel'|'cover --steps'|'cover --buffer'|'profile --steps'|'profile --buffer'|'profile --to'|'profile --from'|'profile --most'|'pace --rounds'|'stat --buffer'|'tree --buffer') return ;;
    'simulate --power') mapfile -t COMPREPLY < <(compgen -W 'low high' -- "$word"); return ;;
    'simulate --order'|'bench --order'|'events --order') mapfile -t COMPREPLY < <(compgen -W 'lowest oldest newest random' -- "$word"); return ;;
    'bench --peer') mapfile -t COMPREPLY < <(compgen -W 'ramp echo' -- "$word"); return ;;
    'bench --device') mapfile -t COMPREPLY < <(compgen -W 'source sink echo fifo memory' -- "$word"); mapfile -t -O "${#COMPREPLY[@]}" COMPREPLY < <(compgen -f -- "$word"); compopt -o filenames; return ;;
  esac
  case "$command" in
    check) options='--json' ;;
    compile) options='--reset --buffer' ;;
    expand) options='' ;;
    run) options='--rounds --buffer' ;;
    simulate) options='--order --seed --steps --power --against --delays' ;;
    bench) options='--peer --order --seed --steps --device --image --keep-script' ;;
    waves) options='--steps --delays --causes' ;;
    unwave) options='' ;;
    migrate) options='' ;;
    grow) options='--sum' ;;
    why) options='--delays --steps --program --buffer --until --all --hex --json' ;;
    hunt) options='--seeds --mixed --steps --to' ;;
    view) options='--delays --steps --until --hex --to --causes-of --latency' ;;
    events) options='--delays --steps --program --buffer --until --order --seed --channel --hex --json' ;;
    cover) options='--steps --buffer' ;;
    profile) options='--delays --steps --program --buffer --to --from --most --json' ;;
    pace) options='--rounds' ;;
    buffered) options='' ;;
    stat) options='--buffer --json' ;;
    tree) options='--buffer' ;;
    lint) options='--json' ;;
    sort) options='--program' ;;
    test) options='--json --keep' ;;
    link) options='--line' ;;
  esac
  if [[ "$word" == -* ]]; then
    mapfile -t COMPREPLY < <(compgen -W "$options" -- "$word")
  else
    mapfile -t COMPREPLY < <(compgen -f -- "$word")
    compopt -o filenames
  fi
}
complete -F _chpx chpx ./chpx
