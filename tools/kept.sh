# shellcheck shell=bash
# Where a proved program is kept on this machine, by the sum of all that its proof reads. For bin/bridge and .ci/run.
# A function that fails says why in one line on standard error, where one that calls it doesn't.
set -o pipefail

temporary=/tmp
[[ ${TMPDIR:-} = /* ]] && temporary=$TMPDIR

# What rt makes in the folder of a crate, and the edits that must fail. The proof of the program reads neither.
unread='[^/]*/\(out\|must-fail\)'

failed() {
  echo "bridge: $*" >&2
  return 1
}

# The folder that keeps programs. It is made where it isn't there, and is never in a checkout.
kept_folder() {
  local folder
  if [[ ${XDG_CACHE_HOME:-} = /* ]]; then
    folder=$XDG_CACHE_HOME/bridge
  elif [[ ${HOME:-} = /* ]]; then
    folder=$HOME/.cache/bridge
  else
    private_folder
    return
  fi
  [ -d "$folder" ] || mkdir -p "$folder" 2>/dev/null || failed "$folder can't be made, where the program is kept" || return
  echo "$folder"
}

# The same for a user without a home: among the temporary files, where somebody else may have put one.
private_folder() {
  local folder=$temporary/bridge-$EUID
  mkdir -m 700 "$folder" 2>/dev/null
  if [ ! -O "$folder" ] || [ "$(stat -c %F:%a "$folder")" != directory:700 ]; then
    failed "there is no HOME, and $folder isn't a folder of this user alone, where the program could be kept" || return
  fi
  echo "$folder"
}

# The lines of crates.txt, of the checkout at $1, of the crates that the program needs.
needed() {
  awk -F: '!/^#/ && NF > 1 { uses[$1] = $2; lines[$1] = lines[$1] $0 "\n" }
    END { if (!("bridge" in uses)) exit 1
      todo[n = 1] = "bridge"
      for (i = 1; i <= n; i++) {
        printf "%s", lines[todo[i]]
        split(uses[todo[i]], names, " ")
        for (k in names) if (!(names[k] in met)) { met[names[k]]; todo[++n] = names[k] }
      } }' "$1/crates.txt" 2>/dev/null | LC_ALL=C sort
}

# The files of these crates, each ended by a zero byte. It fails where one is neither a file nor a folder.
files_of() {
  local lines crates
  lines=$(needed "$1") || return
  mapfile -t crates < <(cut -d: -f1 <<<"$lines" | uniq)
  (cd "$1/crates" && find "${crates[@]}" -regex "$unread" -prune -o -type f -print0 -o ! -type d -exec false {} +)
}

# The sum of all that the proof of the program reads of the checkout at $1: the kit's version, HANDLES, the crates' lines and their files.
key_of() {
  local kit lines sum
  type -P rt >/dev/null || failed "there is no rt in PATH: the program is still to be proved, which takes Rattle's kit" || return
  kit=$(rt version 2>/dev/null </dev/null) && [ -n "$kit" ] || failed "\`rt version\` doesn't say which kit this is" || return
  [ -r "$1/HANDLES" ] || failed "$1/HANDLES is missing, which says what a proof may use" || return
  lines=$(needed "$1") || failed "$1/crates.txt is missing, or has no line of the crate bridge" || return
  sum=$(
    {
      printf '%s\n' "$kit" && sha256sum <"$1/HANDLES" && printf '%s\n' "$lines" || exit
      files_of "$1" | LC_ALL=C sort -z | (cd "$1/crates" && xargs -0r sha256sum)
    } 2>/dev/null | sha256sum
  ) || failed "$1/crates lacks a crate that crates.txt names, or has a link or an unreadable file in one" || return
  echo "${sum%% *}"
}

# What find says of all files of the checkout at $1 that a proof may read.
walk() {
  (cd "$1" && find HANDLES crates.txt crates -regex "crates/$unread" -prune -o ! -type d "${@:2}" 2>/dev/null)
}

# A sum that changes whenever one of these files does, made of names, sizes, inodes and times: nobody can put back that of the last change.
state_of() {
  walk "$1" -printf '%p %y %s %T@ %C@ %i\n' | sha256sum
}

# Whether none of them changed within two seconds. Another change right after such a one could show the same time.
is_settled() {
  local recent
  recent=$(walk "$1" -newerct '2 seconds ago' -print -quit) && [ -z "$recent" ]
}

# A sum that changes whenever the kit does. It fails where there is none.
kit_state() {
  local rt
  rt=$(type -P rt) && rt=$(readlink -f -- "$rt") || return
  { find "$rt" "${rt%/*}/../KIT-ID" -maxdepth 0 -printf '%p %s %T@ %C@ %i\n' 2>/dev/null || :; } | sha256sum
}

# Makes the file that is to become the program at $1, by the name `new`, and sees that a program can run there.
reserve() {
  new=$1.$$.new
  { : >"$new" && chmod 755 "$new" && [ -x "$new" ]; } 2>/dev/null || failed "no program can be kept and run in ${1%/*}"
}

# Makes it the program $1. It is whole before it has its name $2, and a program that runs by that name stays as it is.
put() {
  { cp "$1" "$new" && sync "$new" && mv -f "$new" "$2"; } 2>/dev/null || failed "the program can't be written to ${2%/*}: is there room?"
}

# Keeps the program $1 at $2.
keep() {
  reserve "$2" && put "$1" "$2" && return
  rm -f "$new"
  return 1
}
