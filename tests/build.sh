# Builds what is proved, for the scripts of tests/, bench/run and README.md's commands; they read this file in, or run it as
# `bash tests/build.sh program NAME..` and `bash tests/build.sh library NAME..`. From the top of the repository.

# build_program NAME..: each program is proved, compiled and put into target/bin
build_program() {
  local name
  mkdir -p target/bin
  for name in "$@"; do
    (cd "crates/$name" && rt run </dev/null) >target/rt.log 2>&1
    grep -q '^rt: running' target/rt.log || { cat target/rt.log; return 1; }
    cp "crates/$name/out/$name" target/bin/
  done
}

# build_library NAME..: each static library is proved, compiled and put into target/staticlib as libNAME.a; that of host is the crate host_c
build_library() {
  local name crate
  mkdir -p target/staticlib
  for name in "$@"; do
    crate=$name
    [ "$name" != host ] || crate=host_c
    (cd "crates/$crate" && rt lib) >target/rt.log 2>&1 || { cat target/rt.log; return 1; }
    cp "crates/$crate/out/lib$crate.a" "target/staticlib/lib$name.a"
  done
}

if [ "${BASH_SOURCE[0]}" = "$0" ]; then
  case "${1:-}" in
    program) build_program "${@:2}" ;;
    library) build_library "${@:2}" ;;
    *) echo 'usage: bash tests/build.sh program|library NAME..' >&2; exit 2 ;;
  esac
fi
