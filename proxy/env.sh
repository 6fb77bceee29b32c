# Makes Go use only the libraries from Debian's packages. Sourced by build.sh and test.sh, in this folder.
export GO111MODULE=off GOPATH="$PWD:/usr/share/gocode" GOFLAGS=
: "${GOCACHE:=$PWD/out/cache}"
export GOCACHE
