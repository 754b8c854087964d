// Prints what `iimwire check` prints for a file and, after each envelope, its headline if it has
// one.
//
//   mcs -out:check.exe bindings/examples/Check.cs && LD_LIBRARY_PATH=bindings/out mono check.exe FILE
//
// (.NET compiles and runs the same; Debian has Mono.)
using System;
using System.IO;
using System.Runtime.InteropServices;
using System.Text;

static class Check
{
    const string Library = "libiim.so.1";
    const byte Done = 0, More = 1;

    // The greatest length of a ticket with the limits of wire copy, which all zeros select.
    const int MostOfTicket = 65536 + 6 * 512 + 256;

    // Passed by value, as every structure that is not marked `ref` or `out`.
    [StructLayout(LayoutKind.Sequential)]
    struct Limits { public uint Octets, Fields; }

    [StructLayout(LayoutKind.Sequential)]
    struct Answer
    {
        public byte Status, Layer, Cause, Record, Set;
        public ulong Octet;
        public UIntPtr Used, Written, Ticket;
    }

    [StructLayout(LayoutKind.Sequential)]
    struct Span { public UIntPtr Offset, Count; }

    [StructLayout(LayoutKind.Sequential)]
    struct Dataset
    {
        public byte Record, Set;
        public Span Data;
    }

    [DllImport(Library)]
    static extern void iim_feed(Limits limits, byte[] ticket, UIntPtr ticketLength, ulong at, byte[] piece, UIntPtr pieceLength,
        byte[] text, UIntPtr textLength, byte[] next, UIntPtr nextLength, out Answer answer);

    [DllImport(Library)]
    static extern void iim_end(Limits limits, byte[] ticket, UIntPtr ticketLength, ulong at, out Answer answer);

    [DllImport(Library)]
    static extern void iim_fields(byte[] ticket, UIntPtr ticketLength, UIntPtr from, [Out] Dataset[] datasets, UIntPtr datasetsLength,
        out Answer answer);

    [DllImport(Library)]
    static extern UIntPtr iim_layer_name(byte layer, byte[] name, UIntPtr length);

    [DllImport(Library)]
    static extern UIntPtr iim_cause_name(byte cause, byte[] name, UIntPtr length);

    static UIntPtr Count(byte[] octets) { return (UIntPtr)(ulong)octets.Length; }

    // Returns the line of a refusal.
    static string Refusal(int number, Answer answer)
    {
        byte[] layer = new byte[64], cause = new byte[64];
        int layerLength = (int)iim_layer_name(answer.Layer, layer, Count(layer));
        int causeLength = (int)iim_cause_name(answer.Cause, cause, Count(cause));
        return string.Format("{0} refused at octet {1} by layer {2} on {3}:{4:00}, cause {5} {6}", number, answer.Octet,
            Encoding.ASCII.GetString(layer, 0, layerLength), answer.Record, answer.Set, answer.Cause,
            Encoding.ASCII.GetString(cause, 0, causeLength));
    }

    // Returns the headline in a ticket, or null.
    static byte[] Headline(byte[] ticket, UIntPtr length)
    {
        // The most datasets that the limits of wire copy allow.
        Dataset[] datasets = new Dataset[512];
        Answer answer;
        iim_fields(ticket, length, UIntPtr.Zero, datasets, (UIntPtr)datasets.Length, out answer);
        for (int number = 0; number < (int)answer.Written; number++)
        {
            Dataset dataset = datasets[number];
            if (dataset.Record == 2 && dataset.Set == 105)
            {
                byte[] headline = new byte[(int)dataset.Data.Count];
                Array.Copy(ticket, (int)dataset.Data.Offset, headline, 0, headline.Length);
                return headline;
            }
        }
        return null;
    }

    static int Main(string[] words)
    {
        byte[] rest = File.ReadAllBytes(words[0]), ticket = new byte[MostOfTicket];
        Stream output = Console.OpenStandardOutput();
        for (int number = 1; rest.Length > 0; number++)
        {
            Answer answer;
            byte[] text = new byte[rest.Length];
            iim_feed(new Limits(), null, UIntPtr.Zero, 0, rest, Count(rest), text, Count(text), ticket, Count(ticket), out answer);
            if (answer.Status == More)
                iim_end(new Limits(), ticket, answer.Ticket, answer.Octet, out answer);
            if (answer.Status != Done)
            {
                Console.WriteLine(Refusal(number, answer));
                return 1;
            }
            Console.WriteLine("{0} accepted {1} octets", number, answer.Octet);
            byte[] headline = Headline(ticket, answer.Ticket);
            if (headline != null)
            {
                output.Write(headline, 0, headline.Length);
                Console.WriteLine();
            }
            byte[] next = new byte[rest.Length - (int)answer.Used];
            Array.Copy(rest, (int)answer.Used, next, 0, next.Length);
            rest = next;
        }
        return 0;
    }
}
