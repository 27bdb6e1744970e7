# What shows of the sources without reading them: number on the disk, kind, size and last change of each file and folder that has to
# do with them. These answers of the system are all that a start of ./sccl waits for.
#
# usage: perl tools/look.pl ROOT
#          prints the look of the names that standard input lists, each of which a byte 0 ends (tools/store_look.pl)
#        perl tools/look.pl ROOT ''
#          has status 0 if all looks as out/sccl.look has it
#        perl tools/look.pl ROOT SCRIPT LOCALE FOLDER SETTINGS WORDS..
#          becomes the program, if all looks so, in FOLDER, if that has a name, and with each of the SETTINGS that the environment lacks;
#          and else the script. LOCALE is what the environment is to have as LC_ALL behind the sign =, or is empty where it is to have none
#
# A look is a mark, and then groups of names in one folder. A group is its length and the number of its names, and then the folder,
# the names, the place of each in the group, and the answers. The last has no name.
#
# A start takes little longer than perl's own start and the calls do. So no module is loaded, what a start does not need stands in another
# file, and names and answers are given to the system by their addresses. The answers are taken as they lie in the memory of Linux on x86-64;
# elsewhere nothing is printed, nothing looks as it did, and the script runs.

my ($root, $script, $locale, $folder, $settings, @words) = @ARGV;
length $locale ? ($ENV{LC_ALL} = substr $locale, 1) : delete $ENV{LC_ALL};

# The number of the call, how long its answer is, after how much of it the next may begin, and what of it counts, for the most names of a group.
my ($lstat, $room, $step) = (6, 144, 120);
our ($mark, $most, $group) = ("a look 2", 64);
my $counts = ("\0" x 8 . "\xff" x 48 . "\0" x 48 . "\xff" x 16) x $most . "\0" x $room;
my $answers;

# The answers for so many names, whose places in the group begin there, in the folder where this is. For what is not there the system
# gives none, and zeros stay.
sub answers {
    my ($number, $places) = @_;
    $answers = '';
    vec($answers, $step * $number + $room - 1, 8) = 0;
    my ($from, $to) = unpack 'J2', pack 'p2', $group, $answers;
    $to -= $step;
    syscall $lstat, $from + $_, $to += $step for unpack "x${places}V$number", $group;
    return $answers & $counts;
}

# Whether all looks as it is kept.
sub is_untouched {
    opendir my $top, '.' or return;
    open my $kept, '<', 'out/sccl.look' or return;
    sysread $kept, $group, 16;
    my ($begin, $length, $number) = unpack 'a8V2', $group;
    $begin eq $mark && $number or return;
    while ($number) {
        sysread($kept, $group, $length + 8) == $length + 8 && chdir $top && chdir unpack 'Z*', $group or return;
        my $size = $step * $number + $room;
        answers($number, $length - $size - 4 * $number) eq substr $group, $length - $size, $size or return;
        ($length, $number) = unpack 'V2', substr $group, $length;
    }
    return !$length;
}

my $is_entered = opendir(my $here, '.') && chdir $root;
defined $script or exit !($is_entered && do './tools/store_look.pl');
my $is_untouched = $is_entered && is_untouched();
length $script or exit !$is_untouched;
if ($is_entered && !chdir $here) {
    print STDERR "sccl: the folder that it was started in can't be entered\n";
    exit 70;
}
if ($is_untouched && (!length $folder || chdir $folder)) {
    for (split ' ', $settings) {
        my ($key, $value) = split /=/;
        $ENV{$key} = $value unless defined $ENV{$key};
    }
    exec { "${root}out/sccl" } "${root}out/sccl", @words or chdir $here;
}
exec 'bash', '-u', $script, length $folder ? ('-C', $folder) : (), @words;
