# Completes the arguments of pcc_view in bash. tools/manual made this file.

# Sets `words` to the words up to the cursor. Bash splits them at `@` and `=` too; this joins what no blank separates.
_pcc_view_words() {
  local line=$COMP_LINE rest index
  words=()
  for ((index = 0; index <= COMP_CWORD; index++)); do
    rest=${line#"${line%%[![:blank:]]*}"}
    if [ "$index" -eq 0 ] || [ "$rest" != "$line" ]; then
      words+=("${COMP_WORDS[index]}")
    else
      words[-1]+=${COMP_WORDS[index]}
    fi
    line=${rest#"${COMP_WORDS[index]}"}
  done
}

# Sets `values` to how many values are between the command and the cursor, and `is_value` if the word at the cursor
# can only be a value: `number` after a flag that takes one, `any` after `--`.
_pcc_view_count() {
  local index last=$((${#words[@]} - 1))
  values=0 is_value=
  for ((index = 2; index < last; index++)); do
    case $is_value${words[index]} in
      --) is_value=any ;;
      --steps | --bound) ((++index < last)) || is_value=number ;;
      --*) ;;
      *) values=$((values + 1)) ;;
    esac
  done
}

# Gives the files whose names begin with $1, each with `@` before it.
_pcc_view_policy_files() {
  local path
  while IFS= read -r path; do
    if [ -d "$path" ]; then
      path+=/
      compopt -o nospace 2>/dev/null
    fi
    printf -v path '@%q' "$path"
    COMPREPLY+=("$path")
  done < <(compgen -f -- "$1")
}

_pcc_view() {
  local words kinds=() flags= values is_value current kind given
  COMPREPLY=()
  _pcc_view_words
  _pcc_view_count
  current=${words[-1]}
  case ${words[1]} in
    list) kinds=(file file) ;;
    goals) kinds=(policy_or_file file file) flags='--only-missing --all' ;;
    packet) kinds=(policy_or_file file file number) flags='--steps' ;;
    formula) kinds=(file) flags='--v2 --bound --policy' ;;
    source) kinds=(file) flags='--v2 --bound' ;;
  esac
  kind=${kinds[values]-none}
  [ ${#words[@]} -le 2 ] && kind=command
  case $is_value/$kind/$current in
    number/*) kind=number ;;
    any/*) ;;
    /command/*) ;;
    /*/-* | /none/*) kind=flag ;;
  esac
  case $kind in
    command) given='list goals packet formula source --help --version' ;;
    flag) given=$flags ;;
    policy | policy_or_file) given='filter tag table' ;;
    file) return ;; # no word is given: readline completes the file's name
    *) given= ;;
  esac
  compopt +o default 2>/dev/null
  if [ "$kind" = policy_or_file ] && [ "${current:0:1}" = @ ]; then
    _pcc_view_policy_files "${current:1}"
  else
    mapfile -t COMPREPLY < <(compgen -W "$given" -- "$current")
  fi
}

complete -o default -F _pcc_view pcc_view
