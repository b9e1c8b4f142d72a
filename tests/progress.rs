//! How far long work is, said to the script that runs it and draws it on the terminal
//! (`tools/progress`). Without one nothing is said: each step prints a line of its own when it is done.

/// Says which step begins.
pub fn tell(step: &str) {
    if std::env::var("PROGRESS").is_ok_and(|way| way == "drawn") {
        eprintln!("progress: {step}");
    }
}
