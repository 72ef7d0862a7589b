// ActiveMQ's StompConnection (Debian: libactivemq-java, and a JDK; tried with 5.17.2), against `stompd serve 127.0.0.1:61613 A B`.
// What it needs: accept-version 1.2 and a host (any) at connect, an id and ack auto at each subscription, and an LF behind each frame's
// NULL, for which `receiveFrame` waits.
import java.util.Arrays;
import java.util.HashMap;
import java.util.Map;
import org.apache.activemq.transport.stomp.StompConnection;

class Client {
    static StompConnection connection(int port) throws Exception {
        StompConnection stomp = new StompConnection();
        stomp.open("127.0.0.1", port);
        stomp.connect(new HashMap<>(Map.of("accept-version", "1.2", "host", "h")));
        return stomp;
    }

    // The next frame, as it is shown: its command, what it tells, and its body. `connect` leaves the LF behind CONNECTED to it.
    static String next(StompConnection stomp) {
        try {
            String[] parts = stomp.receiveFrame(10000).stripLeading().split("\n\n", 2);
            String[] lines = parts[0].split("\n");
            String key = Map.of("MESSAGE", "destination:", "RECEIPT", "receipt-id:", "ERROR", "message:").get(lines[0]);
            String told = Arrays.stream(lines).filter(it -> it.startsWith(key)).findFirst().get().substring(key.length());
            return (lines[0] + " " + told + " " + parts[1]).trim();
        } catch (Exception end) {
            return end.getMessage();
        }
    }

    // Shows what comes next, in the order of its text where it may come in any.
    static void show(String who, StompConnection stomp, int count) {
        String[] lines = new String[count];
        Arrays.setAll(lines, at -> next(stomp));
        Arrays.sort(lines);
        Arrays.stream(lines).forEach(it -> System.out.println(who + " " + it));
    }

    public static void main(String[] words) throws Exception {
        int port = Integer.parseInt(words[0]);
        StompConnection subscriber = connection(port), sender = connection(port);
        subscriber.subscribe("A", "auto", new HashMap<>(Map.of("id", "a", "receipt", "to-a")));
        show("subscriber", subscriber, 1);
        subscriber.subscribe("B", "auto", new HashMap<>(Map.of("id", "b", "receipt", "to-b")));
        show("subscriber", subscriber, 1);

        sender.send("A", "hello", null, new HashMap<>(Map.of("receipt", "sent")));
        show("sender", sender, 1);
        show("subscriber", subscriber, 1);

        sender.begin("t");
        sender.send("A", "one", "t", null);
        sender.send("B", "two", "t", null);
        sender.sendFrame("COMMIT\ntransaction:t\nreceipt:committed\n\n\0");
        show("sender", sender, 1);
        show("subscriber", subscriber, 2);

        // There is no such transaction: the ERROR is the last that the server says, and it closes the connection.
        sender.commit("u");
        show("sender", sender, 2);
    }
}
