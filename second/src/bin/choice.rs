//! `choice GRAMMAR TOKENS TREE N N N ...`: three files with the images and
//! one number a node. Prints `choice` or `no choice`.

#![forbid(unsafe_code)]

use std::process::ExitCode;

fn main() -> ExitCode {
    match judge() {
        Ok(true) => println!("choice"),
        Ok(false) => println!("no choice"),
        Err(message) => {
            eprintln!("choice: {message}");
            eprintln!("usage: choice GRAMMAR TOKENS TREE N N N ...");
            return ExitCode::from(2);
        }
    }
    ExitCode::SUCCESS
}

fn judge() -> Result<bool, String> {
    let mut words = std::env::args_os().skip(1);
    let mut image = |name: &str| {
        let file = words.next().ok_or(format!("no {name} file named"))?;
        std::fs::read(&file).map_err(|error| format!("{}: {error}", file.to_string_lossy()))
    };
    let grammar = image("grammar")?;
    let tokens = image("token")?;
    let tree = image("tree")?;
    let mut indentations = Vec::new();
    for word in words {
        let word = word.to_string_lossy();
        let number = word.parse().map_err(|error| format!("{word}: {error}"))?;
        indentations.push(number);
    }
    let shape = second::definition::shape(&grammar, &tokens, &tree);
    if let Some(shape) = shape.filter(|shape| shape.nodes != indentations.len()) {
        return Err(format!(
            "{} numbers for {} nodes",
            indentations.len(),
            shape.nodes
        ));
    }
    Ok(second::choice::is_choice(
        &grammar,
        &tokens,
        &tree,
        &indentations,
    ))
}
