# The hashes of what is fetched, by the ways in which nixpkgs writes them.
{
  # The bytes of note.txt and of package.tar.
  note = {
    md5 = "72376d6be833f9aecdf318ba7b0bdcf7";
    sha1 = "p6dmbdgypgsxxvzksy1zmry6l30ypph6";
    sha256 = "36c710ca852a31c8ee1822197bad05b406e7ec2ed436e6aa3fc17e2301bf629d";
    sha512 = "38886cde9525385f36720e874ff3459b216e3e5f6f370647610ca44d225dc5d738be9786788d7dc7c250f19bcb1dbeb66bece67fa63c99d8fd96ed31f9bbb21e";
    sri = "sha256-NscQyoUqMcjuGCIZe60FtAbn7C7UNuaqP8F+IwG/Yp0=";
  };
  tar = {
    sha256 = "08spnppma9pzfrf6srkx4jjgkqri15qsw6bvdh81xzkj95jamyjh";
    sha512 = "ff24629c4355b33a0b2e6a68c477ccb4d4f02c30920e4d3c8de4b5307bd4a3423136f7abb1e5f2d0b73d8260d3facff637ff70cbf90f283aff2a7d7dcfcea61e";
  };
  # The NAR of the folder that package.tar has.
  tree = {
    md5 = "2xm8bzcpfwmpirg2p8as2xkvh5";
    sha1 = "76cf1151c4b5d047beeaf8cad7f8d4506a0cbd15";
    sha256 = "06e9d09989a43feacd4f095c8e46b92a14791666428b25b4e793864baa50d039";
    sha512 = "1335746e813f66b7c8efb8324a547a58d3f85d732843fc54b934946131da910eee65c9b5c962f3036be901db57806d31b57965ab87e9f1f39e188e4709999f50";
    sri = "sha512-EzV0boE/ZrfI77gySlR6WNP4XXMoQ/xUuTSUYTHakQ7uZcm1yWLzA2vpAdtXgG0xtXllq4fp8fOeGI5HCZmfUA==";
  };
  # The NARs of busybox, of note.txt and of a link to note.txt.
  busybox = "85671caf034488615d5e9afd957fbacfbe9b34a867b23c086db54d752408a034";
  noteNar = "dfd06b2a0063f9b0e51a8996c30b7d3e773b7422b93052aaa721eb1a66f022b69dfecacfd10130814d7731cab8501ab8e3701bd2ee4a226d64bbc0dd6c3b4580";
  link = "050c2637b54118327147228ce153465cca64af9dca905aad69993f278e637620";
}
