export CC=@out@/bin/cc
sawCompiler() { echo "compiled by $CC" >.compiler; }
preHooks+=(sawCompiler)
