/*
 * Prints what `iimwire check` prints for a file and, after each envelope, its headline if it has
 * one.
 *
 *   java -cp /usr/share/java/jna.jar -Djna.library.path=bindings/out bindings/examples/Check.java FILE
 *
 * The program calls the library with JNA (Debian: libjna-java).
 */
import com.sun.jna.Library;
import com.sun.jna.Native;
import com.sun.jna.Structure;
import java.io.IOException;
import java.nio.file.Files;
import java.nio.file.Paths;
import java.util.Arrays;

public class Check {
    static final int DONE = 0, MORE = 1;
    static final int HEADLINE_RECORD = 2, HEADLINE_NUMBER = 105;

    /** The most datasets and the greatest length of a ticket with the limits of wire copy. */
    static final int FIELDS = 512, TICKET = 65536 + 6 * FIELDS + 256;

    /** Is passed by value, which JNA must know. Zeros select the limits of wire copy. */
    @Structure.FieldOrder({"octets", "fields"})
    public static class Limits extends Structure implements Structure.ByValue {
        public int octets, fields;
    }

    @Structure.FieldOrder({"status", "layer", "cause", "rec", "set", "octet", "used", "written", "ticket"})
    public static class Answer extends Structure {
        public byte status, layer, cause, rec, set;
        public long octet, used, written, ticket;
    }

    /** Is stored in a dataset by value, as every field of a structure type. */
    @Structure.FieldOrder({"offset", "count"})
    public static class Span extends Structure {
        public long offset, count;
    }

    @Structure.FieldOrder({"rec", "set", "data"})
    public static class Dataset extends Structure {
        public byte rec, set;
        public Span data;
    }

    public interface Iim extends Library {
        void iim_feed(Limits limits, byte[] ticket, long ticketLength, long at, byte[] piece, long pieceLength, byte[] text, long textLength,
                byte[] next, long nextLength, Answer answer);

        void iim_end(Limits limits, byte[] ticket, long ticketLength, long at, Answer answer);

        void iim_fields(byte[] ticket, long ticketLength, long from, Dataset[] datasets, long datasetsLength, Answer answer);

        long iim_layer_name(byte layer, byte[] name, long length);

        long iim_cause_name(byte cause, byte[] name, long length);
    }

    /** Loads libiim.so.1 from jna.library.path or from the directories of the system. */
    static final Iim IIM = Native.load("libiim.so.1", Iim.class);

    /** Returns the line of a refusal. */
    static String refusal(int number, Answer answer) {
        byte[] layer = new byte[64], cause = new byte[64];
        IIM.iim_layer_name(answer.layer, layer, layer.length);
        IIM.iim_cause_name(answer.cause, cause, cause.length);
        return String.format("%d refused at octet %s by layer %s on %d:%02d, cause %d %s", number, Long.toUnsignedString(answer.octet),
                Native.toString(layer), Byte.toUnsignedInt(answer.rec), Byte.toUnsignedInt(answer.set), Byte.toUnsignedInt(answer.cause),
                Native.toString(cause));
    }

    /** Returns the headline in a ticket, or null. */
    static byte[] headline(byte[] ticket, long length) {
        Answer answer = new Answer();
        Dataset[] datasets = (Dataset[]) new Dataset().toArray(FIELDS);
        IIM.iim_fields(ticket, length, 0, datasets, FIELDS, answer);
        for (int number = 0; number < answer.written; number++) {
            Dataset dataset = datasets[number];
            if (dataset.rec == HEADLINE_RECORD && dataset.set == HEADLINE_NUMBER) {
                int begin = (int) dataset.data.offset;
                return Arrays.copyOfRange(ticket, begin, begin + (int) dataset.data.count);
            }
        }
        return null;
    }

    public static void main(String[] words) throws IOException {
        byte[] rest = Files.readAllBytes(Paths.get(words[0]));
        byte[] ticket = new byte[TICKET];
        Answer answer = new Answer();
        for (int number = 1; rest.length > 0; number++) {
            IIM.iim_feed(new Limits(), null, 0, 0, rest, rest.length, new byte[rest.length], rest.length, ticket, TICKET, answer);
            if (answer.status == MORE) {
                IIM.iim_end(new Limits(), ticket, answer.ticket, answer.octet, answer);
            }
            if (answer.status != DONE) {
                System.out.println(refusal(number, answer));
                System.exit(1);
            }
            System.out.println(number + " accepted " + answer.octet + " octets");
            byte[] headline = headline(ticket, answer.ticket);
            if (headline != null) {
                System.out.write(headline);
                System.out.println();
            }
            rest = Arrays.copyOfRange(rest, (int) answer.used, rest.length);
        }
    }
}
