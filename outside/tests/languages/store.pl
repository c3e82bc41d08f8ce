# The store of store.c.
use strict;
use warnings;
use Fcntl;
use IO::Handle;

sysopen(my $file, 'new', O_WRONLY | O_CREAT | O_TRUNC, 0644) or die "open: $!";
syswrite($file, 'value') == 5 or die "write: $!";
truncate($file, 4) or die "truncate: $!";
$file->sync or die "sync: $!";
close $file or die "close: $!";
rename 'new', 'value' or die "rename: $!";
sysopen(my $folder, '.', O_RDONLY) or die "open: $!";
$folder->sync or die "sync: $!";
close $folder;
sysopen($file, 'value', O_RDONLY) or die "open: $!";
my $bytes;
sysread($file, $bytes, 4) == 4 && $bytes eq 'valu' or die "read: $!";
close $file;
link 'value', 'other' or die "link: $!";
symlink 'value', 'way' or die "symlink: $!";
unlink 'old' or die "unlink: $!";
mkdir 'made' or die "mkdir: $!";
rmdir 'made' or die "rmdir: $!";
