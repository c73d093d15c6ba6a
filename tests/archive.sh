# Sourced by the tests that link the library: `archive` is the one that VURDELLOW_ARCHIVE names, as `make check` does; or that of
# the sources, proved and built first.
archive=${VURDELLOW_ARCHIVE-}
if [ -z "$archive" ]; then
    ./build-lib >/dev/null
    archive=$PWD/target/staticlib/libvurdellow.a
fi
