# Valgrind for the scripts NAME/run of this folder, which read it in.

# finds_valgrind LOG COMMAND..: whether the command finds what is needed of valgrind, which is installed where it is missing and that can
# be done
finds_valgrind() {
  "${@:2}" >/dev/null 2>&1 && return
  { apt-get update && apt-get install -y valgrind; } >>"$1" 2>&1 || true
  "${@:2}" >/dev/null 2>&1
}
