#!/bin/sh
# Writes what the programs are made of, as all of them do for `--version`: of a package what ./package wrote into it, of
# the repository the commit, and whether a file was changed since; and of each proved program its sum, by which it was
# noted when it was proved, and the prover's last line on it.
here=$(readlink -f -- "$0")
root=${here%/*/*}
if [ -e "$root/version" ]; then exec cat -- "$root/version"; fi

commit=
if [ -e "$root/.git" ]; then
  commit=$(TZ=UTC git -C "$root" log -1 --date=format-local:'%Y-%m-%d %H:%M UTC' --format='%H of %cd' 2>/dev/null)
fi
if [ -z "$commit" ]; then
  commit='not known: git does not tell it'
elif [ -n "$(git -C "$root" status --porcelain)" ]; then
  commit="$commit and changes that are not in it"
fi
printf 'binder-audit in a repository, and in no package\ncommit %s\n' "$commit"
for name in binder_audit binder_tables; do
  if "$root/crates/run" --are-proved "$name" 2>/dev/null; then
    sed -n "s/^program /$name: sha256 /p; s/^sources /  proved from sources of the sum /p; s/^verdict /  /p" \
      "$root/crates/$name/out/$name.noted"
  else
    printf '%s: not built from these sources\n' "$name"
  fi
done
