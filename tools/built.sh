# Sourced by the programs' scripts, tools/build and tools/install: where the repository is, and whether a program, or the
# library for C, is proved and current. It starts one process, `find`, so a command that is built costs little more than
# itself.

# Sets `top`, the repository's folder, from the path of a script that is in it or in its tools/. Follows links; starts
# a process only for a link.
find_top() { # SELF
  local self=$1
  [ -L "$self" ] && self=$(readlink -f -- "$self")
  case $self in */*) top=${self%/*} ;; *) top=. ;; esac
  case $top in /*) ;; .) top=$PWD ;; *) top=$PWD/${top#./} ;; esac
  [ -f "$top/crates.txt" ] || top=${top%/*}
}

# Sets `program`, `crate` and `binary` for a program. Needs `top`.
set_program() { # pcc|pcc_view|pcc_native|pcc_auto
  program=$1
  case $program in
    pcc) crate=pcc_main ;;
    pcc_view) crate=view_main ;;
    pcc_native) crate=native_main ;;
    pcc_auto) crate=auto_main ;;
    *) echo "$program is no program of this repository: give pcc, pcc_view, pcc_native or pcc_auto" >&2; return 2 ;;
  esac
  binary=$top/crates/$crate/out/$crate
}

# Sets `crates` to `crate` and all crates below it, by crates.txt. A library that has no line there is the toolchain's.
find_crates() {
  local -A below=() seen=([$crate]=1)
  local lines line name at
  mapfile -t lines <"$top/crates.txt"
  for line in "${lines[@]}"; do
    line=${line%%#*}
    name=${line%%:*}
    [ "$name" = "$line" ] || below[${name%% *}]=${line#*:}
  done
  crates=("$crate")
  for ((at = 0; at < ${#crates[@]}; at++)); do
    for name in ${below[${crates[at]}]-}; do
      [[ ${seen[$name]-} || ! ${below[$name]+set} ]] || { seen[$name]=1; crates+=("$name"); }
    done
  done
}

# Sets `folders` to what the program is made of: src/ and specs/ of its crates. To find them takes bash some 10 ms, so
# they are kept in out/, and found again once crates.txt is newer.
find_folders() {
  local kept=$top/out/build/$crate.folders crates name
  if [ -f "$kept" ] && [ ! "$top/crates.txt" -nt "$kept" ]; then
    mapfile -t folders <"$kept"
    return
  fi
  find_crates
  folders=()
  for name in "${crates[@]}"; do
    folders+=("crates/$name/src")
    [ -d "$top/crates/$name/specs" ] && folders+=("crates/$name/specs")
  done
  # (in a checkout that can't be written they are found each time)
  { mkdir -p "${kept%/*}" && printf '%s\n' "${folders[@]}" >"$kept.$$" && mv -f "$kept.$$" "$kept"; } 2>/dev/null
}

# Succeeds if the proved program is there, and nothing that it is made of is newer: crates.txt, and src/ and specs/ of
# its crates. Their folders count too, so a removed file is seen. Needs what set_program sets.
#
# The program's own time is the mark. tools/build sets it to the start of its build, so an edit during the build is
# seen. A program that `rt ci` or `rt run` left here has the time of its end, which is accepted.
#
# It can be wrong: a file that replaces another and has an old time isn't seen (`cp -p`, `tar x`, `rsync -t`, a clock
# that was set back), nor is another toolchain. It doesn't look at proofs, on purpose: they don't change the program.
# `rt ci` judges them.
is_current() {
  [ -x "$binary" ] && has_no_newer_source
}

has_no_newer_source() {
  local folders
  find_folders
  # (what `find` can't read counts as newer, so its errors do too)
  [ -z "$(cd "$top" && exec find crates.txt "${folders[@]}" -newer "$binary" -print -quit 2>&1)" ]
}

# Succeeds if the archive of the library for C is there, which tools/c_check builds, and no source is newer. Sets `crate`
# and `binary`. Needs `top`.
has_library() {
  crate=pcc_c binary=$top/crates/pcc_c/out/libpcc_c.a
  [ -f "$binary" ] && has_no_newer_source
}

# Runs a program with the words given: the proved one if it is current, else the sources without proofs.
run_program() { # SELF pcc|pcc_view|pcc_native|pcc_auto WORD..
  find_top "$1"
  set_program "$2" || exit
  shift 2
  is_current && exec "$binary" "$@"
  command -v python3 >/dev/null || { echo "$program: there is no python3 on the path, which rt needs" >&2; exit 1; }
  exec "$top/tools/try_pcc" --program "$program" -- "$@"
}
