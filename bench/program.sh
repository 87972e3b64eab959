# Sourced by the other scripts of this folder, which set `top`: PCC is the program that is measured. If it isn't set,
# PCC is the proved pcc, which tools/build builds if it isn't current.

# Sets a variable that isn't set to the proved program of this name, and makes it an absolute path.
set_measured() { # VARIABLE PROGRAM
  if [ -z "${!1-}" ]; then
    "$top/tools/build" "$2" > /dev/null || exit 1
    . "$top/tools/built.sh"
    set_program "$2"
    printf -v "$1" %s "$binary"
  fi
  printf -v "$1" %s "$(realpath "${!1}")"
}

set_measured PCC pcc
