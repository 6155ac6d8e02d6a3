
// Added by Saltwhistle's oracle: later noms take a tuple of parsers as a parser of tuples, 7.1.1 does not.
macro_rules! parser_for_tuple {
  ($($parser:ident $output:ident $index:tt),+) => {
    impl<I, E, $($output, $parser: Parser<I, $output, E>),+> Parser<I, ($($output),+), E>
      for ($($parser),+)
    {
      #[allow(non_snake_case)]
      fn parse(&mut self, rest: I) -> IResult<I, ($($output),+), E> {
        $(let (rest, $output) = self.$index.parse(rest)?;)+
        Ok((rest, ($($output),+)))
      }
    }
  };
}

parser_for_tuple!(P1 O1 0, P2 O2 1);
parser_for_tuple!(P1 O1 0, P2 O2 1, P3 O3 2);
parser_for_tuple!(P1 O1 0, P2 O2 1, P3 O3 2, P4 O4 3);
