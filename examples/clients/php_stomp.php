<?php
// PHP's Stomp (Debian: php-stomp; tried with 2.0.3), against `stompd serve 127.0.0.1:61613 A B`.
// What it needs: accept-version 1.2 and a host (any) at connect, and an id and ack auto at each subscription. Where a receipt is asked
// for, the call waits for it, and says whether it came.
$port = $argv[1] ?? 61613;

function connection($port)
{
    $stomp = new Stomp("tcp://127.0.0.1:$port", '', '', ['accept-version' => '1.2', 'host' => 'h']);
    $stomp->setReadTimeout(10);
    return $stomp;
}

// Shows whether a receipt came, or what the server said: behind that, of an ERROR without a body, the library has octets of its own.
function told($who, $receipt, $came, $stomp)
{
    echo $who, ' ', $came ? "RECEIPT $receipt" : 'ERROR ' . strtok($stomp->error(), "\n"), "\n";
}

// Shows the next MESSAGEs, in the order of their text where they may come in any.
function show($who, $stomp, $count = 1)
{
    $lines = [];
    for ($i = 0; $i < $count; $i++) {
        $frame = $stomp->readFrame();
        $lines[] = $frame ? "$who $frame->command {$frame->headers['destination']} $frame->body\n" : "$who nothing\n";
    }
    sort($lines);
    echo implode($lines);
}

$subscriber = connection($port);
$sender = connection($port);
told('subscriber', 'to-a', $subscriber->subscribe('A', ['id' => 'a', 'ack' => 'auto', 'receipt' => 'to-a']), $subscriber);
told('subscriber', 'to-b', $subscriber->subscribe('B', ['id' => 'b', 'ack' => 'auto', 'receipt' => 'to-b']), $subscriber);

told('sender', 'sent', $sender->send('A', 'hello', ['receipt' => 'sent']), $sender);
show('subscriber', $subscriber);

$sender->begin('t');
$sender->send('A', 'one', ['transaction' => 't']);
$sender->send('B', 'two', ['transaction' => 't']);
told('sender', 'committed', $sender->commit('t', ['receipt' => 'committed']), $sender);
show('subscriber', $subscriber, 2);

// There is no such transaction: the ERROR is the last that the server says, and it closes the connection.
told('sender', 'never', $sender->commit('u', ['receipt' => 'never']), $sender);
