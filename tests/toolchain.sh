# Sourced: where the toolchain stands, and how a program that it built is started.

kit=$(dirname "$(dirname "$(readlink -f "$(command -v rt)")")")
tools=$kit/toolchain

# The words before a program: the toolchain's own loader and C library.
starter=("$tools/lib/ld-linux-x86-64.so.2" --library-path "$tools/lib")

# compiled SOURCE OBJECT [WORD..]: compiles C for the toolchain's processor, by its own clang, which has no headers
compiled() {
  "$tools/bin/clang" --target=x86_64-unknown-linux-gnu -std=gnu11 -O2 -fPIC -Wall -Wextra -Wpedantic -Werror "${@:3}" -c "$1" -o "$2"
}

# is_built FILE: whether it is a program for x86-64, as the toolchain builds them
is_built() {
  [ "$(od -An -tx1 -N4 "$1" | tr -d ' ')" = 7f454c46 ] && [ "$(od -An -tx1 -j18 -N2 "$1" | tr -d ' ')" = 3e00 ]
}
