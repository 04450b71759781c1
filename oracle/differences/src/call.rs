//! A function of the header with its entry in `compare`.

use common::args::Answer;
use common::library::Function;
use compare::check::answers;
use compare::entry::Entry;
use compare::inputs::Input;
use compare::kinds::{first_refusal, Kind, Refusal, ROWS};
use compare::{function, MODULES};

pub struct Call {
    pub entry: &'static Entry,
    pub function: &'static Function,
    /// How many numbers each kind of argument is.
    widths: Vec<usize>,
}

impl Call {
    pub fn new(entry: &'static Entry) -> Result<Call, String> {
        let widths = entry.takes.iter().map(|kind| (kind.limits)()[0].len()).collect();
        Ok(Call { entry, function: function(entry)?, widths })
    }

    pub fn named(name: &str) -> Result<Call, String> {
        let entry = MODULES.iter().flat_map(|(_, entries, _)| *entries).find(|entry| entry.name == name);
        Call::new(entry.ok_or_else(|| format!("there is no function {name}"))?)
    }

    /// The numbers by the kinds of argument. A kind with a slice is the only one of its function.
    fn input(&self, numbers: &[i128]) -> Input {
        if let [_] = self.widths[..] {
            return vec![numbers.to_vec()];
        }
        let mut rest = numbers;
        let mut next = |width: &usize| {
            let (argument, after) = rest.split_at(*width);
            rest = after;
            argument.to_vec()
        };
        self.widths.iter().map(&mut next).collect()
    }

    pub fn refusal(&self, numbers: &[i128]) -> Option<Refusal> {
        first_refusal(self.entry.takes, &self.input(numbers))
    }

    /// The numbers of the refusals that the limits of its arguments meet, in the order of checking.
    pub fn refusals(&self) -> Vec<u32> {
        let made = |kind: &Kind| {
            let refusals = (kind.limits)().into_iter().filter_map(|numbers| (kind.refusal)(&numbers));
            refusals.map(|refusal| refusal.number).collect::<Vec<_>>()
        };
        let made: Vec<u32> = self.entry.takes.iter().flat_map(made).collect();
        let mut numbers: Vec<u32> = ROWS.into_iter().filter(|number| made.contains(number)).collect();
        // `split` looks at its destination last.
        numbers.sort_by_key(|number| self.entry.name == "circle_domain_split" && *number == 8);
        numbers
    }

    /// The numbers by the parameters of the header. A slice begins with its length.
    pub fn arguments<'a>(&self, numbers: &'a [i128]) -> Vec<&'a [i128]> {
        let mut rest = numbers;
        let mut arguments = Vec::new();
        for parameter in self.function.parameters {
            let length = if parameter.range.is_none() { 1 + rest[0] as usize } else { 1 };
            let (argument, after) = rest.split_at(length);
            arguments.push(argument);
            rest = after;
        }
        arguments
    }

    /// The input as the document names it: the arguments that aren't 0 or empty.
    pub fn named_arguments(&self, numbers: &[i128]) -> String {
        let arguments = self.function.parameters.iter().zip(self.arguments(numbers));
        let named =
            arguments.filter(|(_, argument)| argument[0] != 0).map(|(parameter, argument)| match parameter.range {
                Some(_) => format!("{} = {}", parameter.name, argument[0]),
                None => format!("{} = {:?}", parameter.name, &argument[1..]),
            });
        let named = named.collect::<Vec<_>>().join(", ");
        match (named.is_empty(), self.function.slices()) {
            (false, _) => format!("`{named}`"),
            (true, false) => "all 0".to_string(),
            (true, true) => "all 0 or empty".to_string(),
        }
    }

    /// The library's answer, which must be the refusal, or where the input is accepted the answer that `compare` expects.
    pub fn library(&self, numbers: &[i128]) -> Result<Answer, String> {
        let pair = answers(self.entry, self.function, &self.input(numbers));
        if pair.library == pair.expected {
            return Ok(pair.library);
        }
        let (name, library, expected) = (self.entry.name, pair.library, pair.expected);
        Err(format!("the library answers {name} of {numbers:?} with {library:?}, expected was {expected:?}"))
    }
}
