//! libxml2's XPath, timed by the program `host/c/xpath.c` on the same trees.
use super::*;
use std::io::{BufRead, BufReader, Write};
use std::process::{Child, ChildStdout, Command, Stdio};

/// The program `host/c/xpath.c`, which answers one question at a time and waits meanwhile.
pub struct Xpath {
    child: Child,
    answers: BufReader<ChildStdout>,
    twigs: usize,
}

impl Xpath {
    /// Writes the trees and the twigs to a folder, and starts the program there.
    pub fn start(program: &str, folder: &str, asked: &[(&Data, &str, Vec<u8>)]) -> Xpath {
        let mut lines = String::new();
        for (d, name, twig) in asked {
            std::fs::write(format!("{folder}/{}.xml", d.name), document(d)).unwrap();
            lines += &format!("{}\t{}\t{}\n", d.name, expression(name), nodes(d, twig));
        }
        std::fs::write(format!("{folder}/twigs"), lines).unwrap();
        let mut child = Command::new(program)
            .arg(folder)
            .stdin(Stdio::piped())
            .stdout(Stdio::piped())
            .spawn()
            .expect("the program xpath");
        let answers = BufReader::new(child.stdout.take().unwrap());
        Xpath {
            child,
            answers,
            twigs: asked.len(),
        }
    }

    /// For a twig by its number: how many matches, the least time of listing them, how many
    /// elements its one expression has, and the least time of that.
    pub fn ask(&mut self, twig: usize) -> [f64; 4] {
        assert!(twig < self.twigs);
        writeln!(
            self.child.stdin.as_mut().unwrap(),
            "{twig} {CALLS} {BUDGET}"
        )
        .unwrap();
        let mut line = String::new();
        self.answers.read_line(&mut line).unwrap();
        let numbers: Vec<f64> = line
            .split_whitespace()
            .map(|x| x.parse().unwrap())
            .collect();
        numbers
            .try_into()
            .expect("xpath has answered no four numbers")
    }
}

/// A twig's name is its number and its XPath expression.
fn expression(name: &str) -> &str {
    name.split_once(' ').unwrap().1
}

/// The nodes of a twig, PARENT:EDGE:NAME.
fn nodes(d: &Data, twig: &[u8]) -> String {
    let name = |n: u8| if n == 255 { "*" } else { d.names[n as usize] };
    let all: Vec<String> = twig
        .chunks(4)
        .map(|r| format!("{}:{}:{}", r[0], r[1], name(r[2])))
        .collect();
    all.join(" ")
}

/// A tree as XML.
fn document(d: &Data) -> String {
    let (mut xml, mut open) = (String::new(), vec![]);
    for r in 0..d.count {
        let x = &d.s[r * REC..r * REC + REC];
        while open.len() > x[0] as usize {
            xml += &format!("</{}>", open.pop().unwrap())
        }
        open.push(d.names[x[16] as usize]);
        xml += &format!("<{}>", d.names[x[16] as usize]);
    }
    while let Some(name) = open.pop() {
        xml += &format!("</{name}>")
    }
    xml
}
