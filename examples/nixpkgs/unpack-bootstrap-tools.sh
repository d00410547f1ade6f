# Started by busybox: the tools of this machine under one folder, and what the archive holds.
PATH=/usr/bin:/bin
mkdir -p $out/bin $out/share
for tool in $tools; do ln -s /bin/$tool $out/bin/$tool; done
tar -xf $tarball -C $out/share
chmod -R u+w $out
