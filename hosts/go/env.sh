# shellcheck shell=sh
# What a build of this package needs: . ./env.sh. Nothing is fetched.
top=$(cd ../.. && pwd)
export CGO_ENABLED=1 CGO_CFLAGS="-O2 -I$top/capi/include" CGO_LDFLAGS="${WASMLOOP_FOLDER:-$top/dist}/libwasmloop.a" GOFLAGS=-mod=mod GOPROXY=off GOTOOLCHAIN=local
