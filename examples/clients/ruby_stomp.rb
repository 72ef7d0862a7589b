#!/usr/bin/env ruby
# Ruby's stomp (Debian: ruby-stomp; tried with 1.4.10), against `stompd serve 127.0.0.1:61613 A B`.
# What it needs: accept-version 1.2 and a host (any) as connect headers, an id for each subscription, reliable: false
# (else it connects again and again after an ERROR), and no heart-beats (none is its default).
require "stomp"
require "timeout"

PORT = (ARGV[0] || "61613").to_i

def connection
  Stomp::Connection.new(
    hosts: [{ host: "127.0.0.1", port: PORT }],
    reliable: false,
    connect_headers: { "accept-version" => "1.2", "host" => "h" }
  )
end

# The next frame, as it is shown.
def next_of(conn)
  frame = Timeout.timeout(10) { conn.receive }
  return "closed" if frame.nil? || frame.command.nil? || frame.command.empty?
  case frame.command
  when "MESSAGE" then "MESSAGE #{frame.headers['destination']} #{frame.body}"
  when "RECEIPT" then "RECEIPT #{frame.headers['receipt-id']}"
  else "#{frame.command} #{frame.headers['message']} #{frame.headers['receipt-id']}"
  end
rescue Stomp::Error::MaxReconnectAttempts, Stomp::Error::StompException, IOError, SystemCallError
  "closed"
end

# Shows what comes next, in the order of its text where it may come in any.
def show(who, conn, count = 1)
  Array.new(count) { next_of(conn) }.sort.each { |line| puts "#{who} #{line}" }
end

$stdout.sync = true
subscriber = connection
sender = connection
subscriber.subscribe("A", { "id" => "a", "receipt" => "to-a" })
show("subscriber", subscriber)
subscriber.subscribe("B", { "id" => "b", "receipt" => "to-b" })
show("subscriber", subscriber)

sender.publish("A", "hello", { "receipt" => "sent" })
show("sender", sender)
show("subscriber", subscriber)

sender.begin("t")
sender.publish("A", "one", { "transaction" => "t" })
sender.publish("B", "two", { "transaction" => "t" })
sender.commit("t", { "receipt" => "committed" })
show("sender", sender)
show("subscriber", subscriber, 2)

# There is no such transaction: the ERROR is the last that the server says, and it closes the connection.
sender.commit("u", { "receipt" => "never" })
show("sender", sender)
show("sender", sender)

subscriber.disconnect("receipt" => "bye")
