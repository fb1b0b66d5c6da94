# Completion of gdp(1) for bash: its commands, choices and routes, and the files that may stand at each place.

# Completes names of files with one of these endings, and of folders.
_gdp_files() {
  local ending
  compopt -o filenames 2>/dev/null
  mapfile -t COMPREPLY < <(compgen -d -- "$current")
  for ending in "$@"; do
    mapfile -t -O "${#COMPREPLY[@]}" COMPREPLY < <(compgen -f -X "!*.$ending" -- "$current")
  done
}

_gdp_words() {
  mapfile -t COMPREPLY < <(compgen -W "$1" -- "$current")
}

_gdp() {
  local current=${COMP_WORDS[COMP_CWORD]}
  COMPREPLY=()
  case $COMP_CWORD:${COMP_WORDS[1]} in
    1:*) _gdp_words 'test format compile solve check lp make bench draw draw-log explain --help --version' ;;
    2:test | 2:format | 2:check | 2:draw | 3:compile | 4:solve | 3:draw-log | 3:explain) _gdp_files gdp ;;
    3:test) _gdp_files point ;;
    3:check) _gdp_files answer ;;
    3:draw) _gdp_files point answer ;;
    2:draw-log) _gdp_files log answer ;;
    2:explain) _gdp_files gdp point answer lp ;;
    3:lp) _gdp_files lp ;;
    2:compile) _gdp_words 'bigm hull hybrid' ;;
    2:solve | 2:bench) _gdp_words 'bigm hull hybrid logic' ;;
    3:solve | 2:lp | 3:bench) _gdp_words '1000 10000 100000 1000000' ;;
  esac
}

complete -F _gdp gdp
