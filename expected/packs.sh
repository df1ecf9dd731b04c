# Sourced by the scripts that hold a program over packs against what must be printed for them.

# compare_packs CRATE SECOND ANSWERS WRITE PACK=SCRIPT ..: makes each PACK again by `SCRIPT --pack`, and the crate's stdout by
# SECOND, the second implementation; compares each with what is stored, or stores it where WRITE is --write; then ANSWERS
# compares the stdout with the original's stored answers.
compare_packs() {
  local crate=crates/$1 second=$2 answers=$3 write=$4 made names one wrong=0
  shift 4
  made=$(mktemp -d)
  # shellcheck disable=SC2064
  trap "rm -rf '$made'" EXIT
  for one in "$@"; do
    python3 "expected/${one#*=}" --pack "$made/${one%%=*}"
    if [ "$write" = --write ]; then cp "$made/${one%%=*}" "$crate/data/"; fi
    cmp "$made/${one%%=*}" "$crate/data/${one%%=*}" || wrong=1
  done
  mapfile -t names <"$crate/args"
  (cd "$crate/data" && python3 "../../../expected/$second" "${names[@]}") >"$made/stdout"
  if [ "$write" = --write ]; then cp "$made/stdout" "$crate/stdout"; fi
  cmp "$made/stdout" "$crate/stdout" || wrong=1
  # every pack stored is named in args, once, and every name there is a pack
  diff <(LC_ALL=C sort "$crate/args") <(ls "$crate/data" | LC_ALL=C sort) || wrong=1
  if [ "$wrong" = 1 ]; then
    echo 'what is stored differs from what was made'
    exit 1
  fi
  python3 "expected/$answers" "$crate/stdout"
}
