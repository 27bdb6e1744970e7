# The part of tools/look.pl that prints a look, which a start does not need. Its value is whether that could be done.

# Whether the system answers as it does to perl itself.
sub is_understood {
    our $group = ".\0" . pack 'V', 0;
    my $answer = answers(1, 2);
    return pack('V3', map { $_ & 0xffffffff } (lstat '.')[1, 7, 10]) eq join '', map { substr $answer, $_, 4 } 8, 48, 104;
}

# The names that standard input lists, by the folder of the crate from which they are looked at, or by the root.
sub names_by_folder {
    my %names;
    local $/ = "\0";
    while (<STDIN>) {
        my ($folder, $name) = m{\A(crates/[^/]+)/(.*)\z}s ? ($1, $2) : ('.', $_);
        push @{$names{$folder}}, $name;
    }
    return %names;
}

# The group of these names in the folder, where this is.
sub group_of {
    my ($folder, @names) = @_;
    my @places;
    our $group = "$folder\0";
    for (@names) {
        push @places, length $group;
        $group .= $_;
    }
    my $places = length $group;
    $group .= pack 'V*', @places;
    $group .= answers(scalar @names, $places);
    return pack('V2', length $group, scalar @names) . $group;
}

my %names = is_understood() && opendir(my $top, '.') ? names_by_folder() : ();
my $look = our $mark;
for my $folder (sort keys %names) {
    chdir $top && chdir $folder or return '';
    while (my @names = splice @{$names{$folder}}, 0, our $most) {
        $look .= group_of($folder, @names);
    }
}
return %names && print($look, pack 'V2', 0, 0) && close STDOUT;
