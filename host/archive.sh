# For the scripts of host/ and bench/: goes to the repository's top, with SERVICE_ARCHIVE the
# folder that has libservice.a. Where the variable is not set, that is target/staticlib, and the
# archive is made there if it is not there yet.
if [ -n "${SERVICE_ARCHIVE:-}" ]; then
    SERVICE_ARCHIVE=$(cd "$SERVICE_ARCHIVE" && pwd)
fi
cd "$(dirname "$0")/.."
root=$PWD
if [ -z "${SERVICE_ARCHIVE:-}" ]; then
    SERVICE_ARCHIVE=$root/target/staticlib
    [ -f "$SERVICE_ARCHIVE/libservice.a" ] || tools/archive >&2
fi
export SERVICE_ARCHIVE
