fn main() {
    let (text, encoding, had_errors) = encoding_rs::SHIFT_JIS.decode(b"A\x83\x6e\xff");
    println!("{text} {} {had_errors}", encoding.name());
}
