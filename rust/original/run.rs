
/// A tree that is there, converted by the rules that are given.
pub fn run(node: SyntaxNode, mode: LaTeXMode, spec: CommandSpec) -> Result<String, String> {
    let mut output = String::new();
    let error = Rc::new(RefCell::new(String::new()));
    let repr = TypstRepr {
        elem: LatexSyntaxElem::Node(node),
        mode,
        spec,
        error: error.clone(),
    };
    core::fmt::write(&mut output, format_args!("{repr}")).map_err(|_| error.borrow().to_owned())?;
    Ok(output)
}
