<?php
// Prints what `iimwire check` prints for a file and, after each envelope, its headline if it has
// one.
//
//   php bindings/examples/check.php bindings/c/iim.h bindings/out/libiim.so.1 FILE
//
// FFI (Debian: in php-cli) reads the header, except the lines for the preprocessor and for C++,
// which this program removes.
const TICKET = 65536 + 6 * 512 + 256;

[, $header, $library, $name] = $argv;
$iim = FFI::cdef(preg_replace(['/^\s*#.*$/m', '/^extern "C" \{|^\}$/m'], '', file_get_contents($header)), $library);

/** Copies bytes to memory of C. */
function lent(string $octets): FFI\CData
{
    $lent = FFI::new('uint8_t[' . max(1, strlen($octets)) . ']');
    FFI::memcpy($lent, $octets, strlen($octets));
    return $lent;
}

/** Returns the line of a refusal. */
function refusal(FFI $iim, int $number, FFI\CData $answer): string
{
    $layer = FFI::new('char[64]');
    $cause = FFI::new('char[64]');
    $iim->iim_layer_name($answer->layer, $layer, 64);
    $iim->iim_cause_name($answer->cause, $cause, 64);
    return sprintf("%d refused at octet %d by layer %s on %d:%02d, cause %d %s\n", $number, $answer->octet,
        FFI::string($layer), $answer->rec, $answer->set, $answer->cause, FFI::string($cause));
}

/** Returns the headline in a ticket, or null. */
function headline(FFI $iim, FFI\CData $ticket, int $length): ?string
{
    // The most datasets that the limits of wire copy allow.
    $datasets = $iim->new('iim_dataset[512]');
    $answer = $iim->new('iim_answer');
    $iim->iim_fields($ticket, $length, 0, $datasets, 512, FFI::addr($answer));
    for ($number = 0; $number < $answer->written; $number++) {
        $dataset = $datasets[$number];
        if ($dataset->rec === 2 && $dataset->set === 105) {
            return substr(FFI::string($ticket, $length), $dataset->data->offset, $dataset->data->count);
        }
    }
    return null;
}

$rest = file_get_contents($name);
// The limits are passed by value. All zero, as from `new`, they select those of wire copy.
$limits = $iim->new('iim_limits');
$answer = $iim->new('iim_answer');
$ticket = FFI::new('uint8_t[' . TICKET . ']');
for ($number = 1; $rest !== ''; $number++) {
    $length = strlen($rest);
    $text = FFI::new("uint8_t[$length]");
    $iim->iim_feed($limits, null, 0, 0, lent($rest), $length, $text, $length, $ticket, TICKET, FFI::addr($answer));
    $held = $answer->ticket;
    if ($answer->status === $iim->IIM_MORE) {
        $iim->iim_end($limits, $ticket, $held, $answer->octet, FFI::addr($answer));
    }
    if ($answer->status !== $iim->IIM_DONE) {
        echo refusal($iim, $number, $answer);
        exit(1);
    }
    printf("%d accepted %d octets\n", $number, $answer->octet);
    $headline = headline($iim, $ticket, $held);
    if ($headline !== null) {
        echo "$headline\n";
    }
    $rest = substr($rest, $answer->used);
}
