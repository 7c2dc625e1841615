# The sequence of `dh $@ --with elfmap`: see dh_elfmap_lint.
use strict;
use warnings;
use Debian::Debhelper::Dh_Lib;

insert_after('dh_strip', 'dh_elfmap_lint');

1;
