#!/bin/sh
# Links steer and its companion programs into PREFIX/bin, and puts the man page and the completions
# into PREFIX/share. PREFIX is the first word, ~/.local by default. The links lead to this clone,
# which has to stay where it is.
root=$(cd "$(dirname "$(readlink -f "$0")")" && pwd) || exit 1
prefix=${1:-$HOME/.local}
completions=$prefix/share/bash-completion/completions

mkdir -p "$prefix/bin" "$completions" || exit 1
ln -sf "$root/steer.sh" "$prefix/bin/steer" || exit 1
ln -sf "$root"/tools/steer-* "$prefix/bin" || exit 1
install -Dm644 "$root/man/steer.1" "$prefix/share/man/man1/steer.1" || exit 1
install -Dm644 "$root/completions/_steer" "$prefix/share/zsh/site-functions/_steer" || exit 1
for program in "$prefix"/bin/steer "$root"/tools/steer-*; do
    install -m644 "$root/completions/steer.bash" "$completions/${program##*/}" || exit 1
done
