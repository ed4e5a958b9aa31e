# Completions of stackc, layerfmt, runchart, stackhunt and stackcheck for bash, made by tools/make.py from tools/jobs.tsv and tools/programs.tsv.
# To have them: source tools/completions/stackc.bash

_stackc_files() {
  local current=$1 names=() ending
  shift
  for ending; do mapfile -t -O "${#names[@]}" names < <(compgen -f -X "!*.$ending" -- "$current"); done
  mapfile -t -O "${#names[@]}" names < <(compgen -d -- "$current")
  [ "${#names[@]}" -gt 0 ] || mapfile -t names < <(compgen -f -- "$current")
  COMPREPLY=("${names[@]}")
  compopt -o filenames 2>/dev/null || true
}

_stackc() {
  local current=${COMP_WORDS[COMP_CWORD]} before="" name=${COMP_WORDS[0]##*/} options="" valued="" kinds="" place=0 at=1 word
  COMPREPLY=()
  [ "$COMP_CWORD" -eq 0 ] || before=${COMP_WORDS[COMP_CWORD - 1]}
  # Readline cuts `--run=layered` into three words.
  if [ "$current" = "=" ]; then current=""; elif [ "$before" = "=" ]; then before=${COMP_WORDS[COMP_CWORD - 2]}; fi
  [ "${COMP_WORDS[1]-}" != --trial ] || [ "$COMP_CWORD" -eq 1 ] || at=2
  if [ "$COMP_CWORD" -eq "$at" ] && { [ "$name" = stackc ] || [[ $current == --* ]]; }; then
    word=""
    [ "$name" != stackc ] || word="check synth pack replay explain load node audit"
    [ "$at" -eq 2 ] || word="$word --help --version --prove --trial"
    mapfile -t COMPREPLY < <(compgen -W "$word" -- "$current")
    [ "$name" != stackc ] || return
  fi
  [ "$name" != stackc ] || { name="stackc ${COMP_WORDS[at]}"; at=$((at + 1)); }
  case $name in
  'stackc check') options="" valued="" kinds="layers" ;;
  'stackc synth') options="" valued="" kinds="layers" ;;
  'stackc pack') options="" valued="" kinds="layers" ;;
  'stackc replay') options="--run --with --events --wire --count" valued="--run --with" kinds="layers script" ;;
  'stackc explain') options="" valued="" kinds="layers script" ;;
  'stackc load') options="--seed --events --members --run --raw" valued="--seed --events --members --run" kinds="layers" ;;
  'stackc node') options="--turns --me --run --patience" valued="--turns --me --run --patience" kinds="layers plan" ;;
  'stackc audit') options="--law" valued="--law" kinds="report,journal" ;;
  'layerfmt') options="" valued="" kinds="layers" ;;
  'runchart') options="--from --to --breach --hide" valued="--from --to --breach --hide" kinds="report,journal" ;;
  'stackhunt') options="--law --members --events --runs --seed --seconds --style" valued="--law --members --events --runs --seed --seconds --style" kinds="layers" ;;
  'stackcheck') options="--law --events --repeats --seconds" valued="--law --events --repeats --seconds" kinds="layers script,acts" ;;
  *) return ;;
  esac
  if [[ " $valued " == *" $before "* ]]; then
    case $name$before in
    'stackc replay--run') mapfile -t COMPREPLY < <(compgen -W "bypass layered" -- "$current") ;;
    'stackc replay--with') _stackc_files "$current" bypasses ;;
    'stackc load--run') mapfile -t COMPREPLY < <(compgen -W "bypass layered" -- "$current") ;;
    'stackc node--run') mapfile -t COMPREPLY < <(compgen -W "bypass layered" -- "$current") ;;
    'stackc audit--law') mapfile -t COMPREPLY < <(compgen -W "sender total same" -- "$current") ;;
    'stackhunt--law') mapfile -t COMPREPLY < <(compgen -W "sender total same" -- "$current") ;;
    'stackhunt--style') mapfile -t COMPREPLY < <(compgen -W "mixed flood crash part" -- "$current") ;;
    'stackcheck--law') mapfile -t COMPREPLY < <(compgen -W "sender total same" -- "$current") ;;
    esac
    return
  fi
  if [[ $current == -* ]]; then
    mapfile -t -O "${#COMPREPLY[@]}" COMPREPLY < <(compgen -W "$options" -- "$current")
    return
  fi
  while [ "$at" -lt "$COMP_CWORD" ]; do
    word=${COMP_WORDS[at]}
    if [[ " $valued " == *" $word "* ]]; then
      at=$((at + 1)); [ "${COMP_WORDS[at]-}" != "=" ] || at=$((at + 1))
    elif [[ $word != -* ]]; then
      place=$((place + 1))
    fi
    at=$((at + 1))
  done
  read -ra kinds <<<"$kinds"
  if [ "$place" -lt "${#kinds[@]}" ]; then
    # shellcheck disable=SC2086 # (endings with a comma between)
    _stackc_files "$current" ${kinds[place]//,/ }
  else
    mapfile -t COMPREPLY < <(compgen -W "$options" -- "$current")
  fi
}

complete -F _stackc stackc ./stackc layerfmt ./layerfmt runchart ./runchart stackhunt ./stackhunt stackcheck ./stackcheck
