# The verdict of document 01, and of request 3 of document 02, over what the Rust made of the same messages. Each line has max LUN, a message
# in hex and the Rust's parse of it, in which the LUN is the eighth word. It prints 0 invalid, 1 valid only, 2 meaningful.
{
    flags = substr($2, 25, 2)
    beside_lun = substr($2, 27, 1)
    clear = (flags == "00" || flags == "80") && beside_lun == "0"
    print ($2 !~ /^55534243/ ? 0 : $3 == "invalid" || $10 > $1 || !clear ? 1 : 2)
}
