# A program, a shared library with its links, a header, and a page of text.
. ./config
mkdir -p "$prefix/bin" "$prefix/lib/pkgconfig" "$prefix/include" "$prefix/share/doc/$pname"
cp program "$prefix/bin/$pname"
chmod 755 "$prefix/bin/$pname"
ln -s "$pname" "$prefix/bin/$pname-$version"
cp library "$prefix/lib/lib$pname.so.$version"
chmod 755 "$prefix/lib/lib$pname.so.$version"
ln -s "lib$pname.so.$version" "$prefix/lib/lib$pname.so.1"
ln -s "lib$pname.so.1" "$prefix/lib/lib$pname.so"
printf 'prefix=%s\nLibs: -L%s/lib -l%s\n' "$prefix" "$prefix" "$pname" >"$prefix/lib/pkgconfig/$pname.pc"
cp src/header.h "$prefix/include/$pname.h"
cp README "$prefix/share/doc/$pname/README"
