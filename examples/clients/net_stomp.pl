#!/usr/bin/env perl
# Perl's Net::Stomp (Debian: libnet-stomp-perl; tried with 0.61), against `stompd serve 127.0.0.1:61613 A B`.
# What it needs: accept-version 1.2 and a host (any) at connect, an id for each subscription, ack auto or none, and
# reconnect_on_fork and automatic reconnects off (else it connects again after an ERROR).
use strict;
use warnings;
use Net::Stomp;
use Net::Stomp::Frame;

$| = 1;
my $port = shift // 61613;

sub connection {
    my $stomp = Net::Stomp->new({
        hostname => '127.0.0.1', port => $port, reconnect_on_fork => 0, initial_reconnect_attempts => 1,
    });
    $stomp->connect({ 'accept-version' => '1.2', host => 'h' });
    return $stomp;
}

# Sends a frame as it stands, for those that the library has no method for.
sub say_frame {
    my ($stomp, $command, $headers, $body) = @_;
    $stomp->send_frame(Net::Stomp::Frame->new({ command => $command, headers => $headers, body => $body // '' }));
}

# The next frame, as it is shown.
sub next_of {
    my ($stomp) = @_;
    my $frame = eval { $stomp->receive_frame({ timeout => 10 }) } or return 'closed';
    my $headers = $frame->headers;
    return "MESSAGE $headers->{destination} " . $frame->body if $frame->command eq 'MESSAGE';
    return "RECEIPT $headers->{'receipt-id'}" if $frame->command eq 'RECEIPT';
    return join ' ', $frame->command, $headers->{message}, $headers->{'receipt-id'} // '';
}

# Shows what comes next, in the order of its text where it may come in any.
sub show {
    my ($who, $stomp, $count) = @_;
    my @lines = map { next_of($stomp) } 1 .. ($count // 1);
    print "$who $_\n" for sort @lines;
}

my $subscriber = connection();
my $sender     = connection();
say_frame($subscriber, 'SUBSCRIBE', { id => 'a', destination => 'A', receipt => 'to-a' });
show('subscriber', $subscriber);
say_frame($subscriber, 'SUBSCRIBE', { id => 'b', destination => 'B', receipt => 'to-b' });
show('subscriber', $subscriber);

$sender->send({ destination => 'A', body => 'hello', receipt => 'sent' });
show('sender', $sender);
show('subscriber', $subscriber);

say_frame($sender, 'BEGIN', { transaction => 't' });
$sender->send({ destination => 'A', body => 'one', transaction => 't' });
$sender->send({ destination => 'B', body => 'two', transaction => 't' });
say_frame($sender, 'COMMIT', { transaction => 't', receipt => 'committed' });
show('sender', $sender);
show('subscriber', $subscriber, 2);

# There is no such transaction: the ERROR is the last that the server says, and it closes the connection.
say_frame($sender, 'COMMIT', { transaction => 'u', receipt => 'never' });
show('sender', $sender);
show('sender', $sender);

say_frame($subscriber, 'DISCONNECT', { receipt => 'bye' });
show('subscriber', $subscriber);
