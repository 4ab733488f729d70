# What ./explain and ./message share: the words for kinds, statuses, reasons and answer numbers, each in one place, and
# where the parts of a message stand. Nothing is decided here: the numbers come from the proved programs.
package Words;
use strict;
use warnings;
use Exporter 'import';
use FindBin;

our @EXPORT = qw(refuse start check_file counted listed some_lines commas dotted address_number no_address is_net is_on
    kind_named status_words status_number is_status status_fault reason_words header checksum blocks brief row_words
    rule_words refusal);

my $root = $FindBin::RealBin;

# Ends the script that is running, with words on standard error.
sub refuse {
    my ($status, $words) = @_;
    print STDERR "$FindBin::RealScript: $words\n";
    exit $status;
}

# The path of a proved program, which is built if it is missing.
sub program {
    my ($name) = @_;
    my $path = "$root/crates/$name/out/$name";
    -x $path or system('/bin/bash', "$root/lib/build", $name, $FindBin::RealScript) == 0 or exit 1;
    return $path;
}

# Starts a proved program: what it writes, and what it reads.
sub start {
    my ($name) = @_;
    my $path = program($name);
    pipe my $written, my $its_output or refuse(1, "no pipe: $!");
    pipe my $its_input, my $fed or refuse(1, "no pipe: $!");
    my $child = fork // refuse(1, "no process: $!");
    if (!$child) {
        $SIG{PIPE} = 'DEFAULT';
        open STDIN, '<&', $its_input and open STDOUT, '>&', $its_output and exec { $path } $path;
        refuse(1, "$path: $!");
    }
    binmode $_ for $written, $fed;
    return ($written, $fed);
}

sub check_file {
    my ($name) = @_;
    -e $name or refuse(1, "there is no file $name");
    -d $name and refuse(1, "$name is a directory");
    -r $name or refuse(1, "cannot read $name");
}

# '1 row', '2 rows', 'no rows'
sub counted {
    my ($count, $noun) = @_;
    return $count == 1 ? "1 $noun" : ($count == 0 ? 'no' : commas($count)) . " ${noun}s";
}

# 'a', 'a and b', 'a, b and c'
sub listed {
    my @words = @_;
    my $last = pop @words;
    return @words ? join(', ', @words) . " and $last" : $last;
}

# 'line 5', 'lines 5 and 7', 'lines 1, 2, 3, 4, 5 and 9 more': of so many the first.
sub some_lines {
    my ($count, @first) = @_;
    return ($count == 1 ? 'line ' : 'lines ') . listed(@first, $count > @first ? $count - @first . ' more' : ());
}

sub commas {
    my ($number) = @_;
    return $number if $number < 1000;
    1 while $number =~ s/^(\d+)(\d{3})/$1,$2/;
    return $number;
}

# Addresses and nets.

sub dotted { return join '.', unpack 'C4', pack 'N', $_[0] }

# The number of an address, or undef if it is none: four numbers of 0 to 255 without leading zeros.
sub address_number {
    my ($text) = @_;
    my $part = qr/(0|[1-9]\d{0,2})/;
    my @parts = $text =~ /\A$part\.$part\.$part\.$part\z/ or return undef;
    return undef if grep { $_ > 255 } @parts;
    return unpack 'N', pack 'C4', @parts;
}

sub no_address { return "'$_[0]' is no address, four numbers of 0 to 255 with points between them" }

# How many octets a net takes that begins with this one: 1, 2 or 3 by its class, 0 if it has none.
sub net_size {
    my ($first) = @_;
    return $first < 128 ? 1 : $first < 192 ? 2 : $first < 224 ? 3 : 0;
}

# The bits of a net's host part, all ones: those of its class.
sub host_bits {
    my ($net) = @_;
    return 0xFFFFFFFF >> 8 * net_size($net >> 24);
}

# Whether this is a net of class A, B or C, left justified.
sub is_net {
    my ($net) = @_;
    return net_size($net >> 24) > 0 && ($net & host_bits($net)) == 0;
}

# Whether an address is on such a net.
sub is_on {
    my ($address, $net) = @_;
    return ($address & ~host_bits($net) & 0xFFFFFFFF) == $net;
}

# The ten kinds, in the order of the driver's numbers; an Update has 16 octets or more.
my @kinds = map { my %kind; @kind{qw(number name type code statuses size)} = @$_; \%kind } (
    [0, 'Request',   3, 0, 'mode',   14],
    [1, 'Confirm',   3, 1, 'mode',   14],
    [2, 'Refuse',    3, 2, 'cause',  10],
    [3, 'Cease',     3, 3, 'cause',  10],
    [4, 'Cease-ack', 3, 4, 'cause',  10],
    [5, 'Hello',     5, 0, 'state',  10],
    [6, 'I-H-U',     5, 1, 'state',  10],
    [7, 'Poll',      2, 0, 'state',  16],
    [8, 'Update',    1, 0, 'report', 16],
    [9, 'Error',     8, 0, 'report', 24],
);
my %kind_named = map { lc $_->{name} => $_ } @kinds;
my %kind_of = map { ("$_->{type},$_->{code}" => $_) } @kinds;

sub kind_named { return $kind_named{ lc $_[0] } }
sub kind_of { return $kind_of{"$_[0],$_[1]"} }

my %statuses = (
    mode => { 0 => 'either mode', 1 => 'active mode', 2 => 'passive mode' },
    cause => {
        0 => 'unspecified', 3 => 'insufficient resources', 4 => 'administratively prohibited', 5 => 'going down',
        6 => 'parameter problem', 7 => 'protocol violation',
    },
    state => { 0 => 'indeterminate', 1 => 'up', 2 => 'down' },
);
$statuses{report} = {
    %{ $statuses{state} },
    map { (128 + $_ => "$statuses{state}{$_}, unsolicited") } keys %{ $statuses{state} },
};
my @reasons = (
    'unspecified', 'bad EGP header format', 'bad EGP data field format', 'reachability info unavailable',
    'excessive polling rate', 'no response',
);

sub status_words {
    my ($kind, $status) = @_;
    return $statuses{ $kind->{statuses} }{$status} // "status $status";
}

# The number of a status in words, or undef; blanks may be hyphens, and of the modes 'mode' may be left out.
sub status_number {
    my ($kind, $words) = @_;
    my %numbers = reverse %{ $statuses{ $kind->{statuses} } };
    $words = lc $words;
    $words =~ tr/-_/  /;
    $words =~ s/\s*[+,]\s*unsolicited\z/, unsolicited/;
    $words = 'either' if $kind->{statuses} eq 'mode' && $words eq 'unspecified';
    return $numbers{$words} // $numbers{"$words mode"};
}

sub is_status {
    my ($kind, $status) = @_;
    return exists $statuses{ $kind->{statuses} }{$status};
}

sub reason_words {
    my ($reason) = @_;
    return defined $reasons[$reason] ? "$reason, $reasons[$reason]" : $reason;
}

# The complement of the one's complement sum of 16-bit words, the field itself taken as 0.
sub checksum {
    my ($octets) = @_;
    my $words = $octets . "\0" x (6 + length($octets) % 2);
    substr($words, 4, 2) = "\0\0";
    my $sum = unpack '%32n*', $words;
    $sum = ($sum & 0xFFFF) + ($sum >> 16) while $sum > 0xFFFF;
    return 0xFFFF - $sum;
}

# What stands in a message's octets, whatever reading makes of them; what is missing counts as 0.
sub header {
    my ($octets) = @_;
    my %m;
    @m{qw(version type code status checksum as sequence)} = unpack 'C4n3', $octets . "\0" x 10;
    $m{right} = checksum($octets);
    $m{octets} = length $octets;
    $m{hex} = uc unpack 'H*', $octets;
    $m{kind} = kind_of($m{type}, $m{code}) if $m{octets} > 2;
    return \%m;
}

# An Update's blocks. Each has a side, a gateway, its first and last octet and its groups, a distance and a number of
# nets each. Beside them: how many rows they give, and where they can't be right, if so.
sub blocks {
    my ($octets, $net) = @_;
    my $walk = { octets => $octets, at => 16, blocks => [], rows => 0 };
    my @counts = unpack 'C2', substr $octets, 10, 2;
    eval {
        for my $side ('internal', 'external') {
            my $count = shift @counts;
            take_block($walk, $net, $side, "$side gateway $_ of $count") for 1 .. $count;
        }
        my $left = length($octets) - $walk->{at};
        die counted($left, 'octet') . " left over from octet $walk->{at} on\n" if $left;
        1;
    } or chomp($walk->{fault} = $@);
    return $walk;
}

sub take_block {
    my ($walk, $net, $side, $place) = @_;
    my $from = $walk->{at};
    my $host = take($walk, 4 - net_size($net >> 24), $place);
    my $gateway = dotted($net | unpack 'N', substr "\0\0\0\0$host", -4);
    my $named = "$side gateway $gateway";
    my $distances = ord take($walk, 1, "the number of distances of $named");
    my @groups = map { take_group($walk, $named, "distance $_ of $distances") } 1 .. $distances;
    push @{ $walk->{blocks} },
        { side => $side, gateway => $gateway, from => $from, to => $walk->{at} - 1, groups => \@groups };
}

sub take_group {
    my ($walk, $named, $place) = @_;
    my ($distance, $nets) = unpack 'C2', take($walk, 2, "$place behind $named");
    for my $nth (1 .. $nets) {
        my $first = unpack 'C', substr $walk->{octets}, $walk->{at};
        my $size = net_size($first // 0)
            or die sprintf "octet %d is %02X, which begins no net of class A, B or C\n", $walk->{at}, $first;
        take($walk, $size, "net $nth of $nets at distance $distance behind $named");
        $walk->{rows}++;
    }
    return [$distance, $nets];
}

# The next octets of a walk, which ends if they are not there.
sub take {
    my ($walk, $count, $place) = @_;
    my ($at, $end) = ($walk->{at}, length $walk->{octets});
    die "its body breaks off at octet $end, " . ($at < $end ? 'within' : 'before') . " $place\n" if $end - $at < $count;
    $walk->{at} += $count;
    return substr $walk->{octets}, $at, $count;
}

# A message in a few words.
sub brief {
    my ($m) = @_;
    my $kind = $m->{kind} or return 'a message of no kind';
    my @own = (status_words($kind, $m->{status}), "sequence $m->{sequence}");
    push @own, "intervals $m->{hello} and $m->{poll}" if defined $m->{hello};
    push @own, "about $m->{net}" if defined $m->{net};
    push @own, counted($m->{rows}, 'row') if $kind->{name} eq 'Update' && defined $m->{net};
    push @own, 'reason ' . reason_words($m->{reason}) if defined $m->{reason};
    push @own, "quoting $m->{quote}" if defined $m->{quote};
    return "$kind->{name} (" . join(', ', @own) . ')';
}

# A row of a neighbour; its gateway is named where it is another.
sub row_words {
    my ($row, $neighbour) = @_;
    my ($net, $gateway, $distance, $side) = @$row;
    return "$net (distance $distance"
        . ($gateway eq $neighbour ? '' : " behind $gateway")
        . ($side eq 'ext' ? ', external' : '') . ')';
}

# The answer numbers that a recording or a message can meet: what each refuses and the rule's name, both as the table of
# answers in docs/RULES.md has them, and what was found, of the message and of what is known about the call.
my %answers = (
    5 => ['an address that no used slot has', 'present', \&no_neighbour],
    6 => ['a message of fewer than 10 or more than 2,048 octets', 'size_allowed',
        sub { counted($_[0]{octets}, 'octet') . '; a message has 10 to 2,048' }],
    7 => ['a version (octet 0) other than 2', 'version_is2', sub { "version is $_[0]{version}, should be 2" }],
    8 => ['a checksum field unlike the number worked out', 'checksum_holds',
        sub { sprintf 'checksum is %04X, should be %04X', $_[0]{checksum}, $_[0]{right} }],
    9 => ['an AS field unlike the AS of that slot', 'message_number',
        sub { "AS is $_[0]{as}, should be $_[1]{peer}, as line $_[1]{added} added it" }],
    10 => ['a type and code that name none of the ten kinds', 'is_known',
        sub { "type $_[0]{type} with code $_[0]{code} is none of the ten kinds" }],
    11 => ['a status that the kind does not have', 'status_fits', \&status_fault],
    12 => ['a length that the kind does not have', 'length_fits', \&wrong_length],
    13 => ['outside Idle, a response whose sequence number is not S', 'sequence_fits',
        sub { "sequence is $_[0]{sequence}, should be $_[1]{S}: $_[1]{meaning}" }],
    14 => ['an Update that finds its neighbour Up, with another net than the common one, or with blocks that are cut '
            . 'short, leave octets over or hold a net of no class', 'body_number', \&wrong_body],
    15 => ['an Update that passes 14 but has 129 rows or more', 'update_room',
        sub { counted(blocks(pack('H*', $_[0]{hex}), $_[1]{common})->{rows}, 'row') . '; there may be 128' }],
    16 => ['settings or a neighbour that may not be; in writing, a meaning that no reading gives',
        'add_answer, writable', sub { join '; ', @{ $_[1]{faults} } }],
    17 => ['a ninth neighbour', 'add_answer', sub { "all eight slots are taken: $_[1]{neighbours}" }],
    18 => ['removal of a neighbour that is not in Idle', 'remove_answer',
        sub { 'it is in ' . ucfirst($_[1]{before}) . ', must be in Idle: Stop and its Cease-ack bring it there' }],
    19 => ['a bad line of a recording (L1), before all others', 'bad_step'],
    21 => ['in Down and Up, a Hello that comes fewer than 30 ticks, or a Poll that comes fewer than 120 ticks, after '
            . 'the last one carried out in this acquisition (L5)', 'spacing_fits', \&too_quick],
    22 => ["a tick when the neighbour's seconds add up to 4,294,967,295 (L7)", 'has_time',
        sub { 'its seconds add up to 4,294,967,295, and no more can be counted' }],
);

sub no_neighbour {
    my ($m, $call) = @_;
    my $line = "add=$call->{address}/" . ($m ? $m->{as} : 'AS');
    my $why
        = defined $call->{removed} ? "it was removed on line $call->{removed}"
        : defined $call->{failed} ? "its add on line $call->{failed} was refused"
        : "it was never added: a line $line is missing, or the address is wrong";
    return "no neighbour has this address, $why; "
        . ($call->{neighbours} ? "those there are: $call->{neighbours}" : 'there is none at all');
}

sub status_fault {
    my ($m) = @_;
    my $words = $statuses{ $m->{kind}{statuses} };
    return "status is $m->{status}; $m->{kind}{name} has "
        . join ', ', map { "$_ ($words->{$_})" } sort { $a <=> $b } keys %$words;
}

sub wrong_length {
    my ($m) = @_;
    my $more = $m->{kind}{name} eq 'Update' ? ' or more' : '';
    return counted($m->{octets}, 'octet') . "; $m->{kind}{name} has $m->{kind}{size}$more";
}

sub wrong_body {
    my ($m, $call) = @_;
    my $common = $call->{common};
    is_net($common) or return dotted($common) . ' is no common net: none of class A, B or C, left justified';
    my $net = unpack 'N', pack 'H*', substr $m->{hex}, 24, 8;
    return 'net is ' . dotted($net) . ', should be the common net ' . dotted($common) if $net != $common;
    return blocks(pack('H*', $m->{hex}), $common)->{fault} // 'its body can not be right';
}

sub too_quick {
    my ($m, $call) = @_;
    my ($since, $least) = $m->{kind}{name} eq 'Hello' ? ($call->{sincehello}, 30) : ($call->{sincepoll}, 120);
    return ($since ? counted($since, 'second') . ' after' : 'in the same second as')
        . " its last $m->{kind}{name}; there must be $least between them";
}

# An answer number, the rule's name, where it was met and what it refuses.
sub rule_words {
    my ($number, $where) = @_;
    my $answer = $answers{$number} or return "$number$where";
    return "$number ($answer->[1])$where: $answer->[0]";
}

# 'refused (8): ..', what was found and what should be.
sub refusal {
    my ($number, $m, $call) = @_;
    my $found = $answers{$number} ? $answers{$number}[2]->($m, $call) : 'docs/RULES.md has the number';
    return "refused ($number): $found";
}

1;
