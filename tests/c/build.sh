# Sourced by the scripts that compile C: the compilers, their warnings, and the library.
CC=${CC:-gcc}
CXX=${CXX:-g++}
warnings=(-Wall -Wextra -Werror -pedantic)
sanitizers=(-g -O1 -fsanitize=address,undefined -fno-sanitize-recover=all)
library=(-Ibuild/include)
archive=build/libshawm.a
out=build/tests/c-$CC
mkdir -p "$out"
