//! A sheet's tokens and primitives as the Rust's tree.

use crate::ast::Expr;
use crate::sheet::Sheet;

pub fn tree(sheet: &Sheet) -> Expr {
    let mut stack = Vec::new();
    let mut primitives = sheet.primitives.iter().rev();
    for token in sheet.tokens.iter().rev() {
        let mut next = || Box::new(stack.pop().unwrap());
        let node = match token {
            0 => Expr::Primitive(primitives.next().unwrap().clone()),
            1 => Expr::And(next(), next()),
            2 => Expr::Or(next(), next()),
            _ => Expr::Not(next()),
        };
        stack.push(node);
    }
    stack.pop().unwrap()
}
