//! Reports on damaged packs, by the library and by the model, and how often each rule was told of packs of each form.

use crate::damage;
use crate::lent::Lent;
use crate::random::Random;
use model::boundary;
use model::pack::consistency::examine;
use model::pack::form::{Form, ALL};
use model::report::{report, MAP, RULES};
use model::words::word;

#[derive(Default)]
pub struct Reports {
    /// By form, in the order of all, and rule.
    rules: [[usize; RULES]; ALL.len()],
    /// Faults of a map of which the lowest is that of no block.
    behind: usize,
}

impl Reports {
    /// A damaged pack of a form; and where it is consistent still, it is damaged once more, up to three times.
    pub fn compare(&mut self, random: &mut Random, form: Form, image: &[u8]) -> Result<(), String> {
        self.compare_one(form, image)?;
        let mut image = image.to_vec();
        for _ in 0..3 {
            if examine(&image).is_err() {
                break;
            }
            damage::damage(random, &mut image);
            self.compare_one(form, &image)?;
        }
        Ok(())
    }

    fn compare_one(&mut self, form: Form, image: &[u8]) -> Result<(), String> {
        let (lent, kept) = (Lent::new(image), Lent::new(image));
        let (library, model) = (boundary::report(lent.slice()), report(image));
        if library != model {
            return Err(format!("a report on {} bytes\nlibrary: {library:?}\nmodel:   {model:?}", image.len()));
        }
        if let Some(difference) = lent.difference(&kept) {
            return Err(format!("a report on {} bytes wrote: {difference}", image.len()));
        }
        if (model.rule == 0) != examine(image).is_ok() {
            return Err(format!("a report on {} bytes is not as the check: {model:?}", image.len()));
        }
        let index = ALL.iter().position(|&other| other == form).expect("it was drawn from all");
        self.rules[index][model.rule] += 1;
        self.behind += (model.rule == MAP && model.block >= word(image, 1) as usize) as usize;
        Ok(())
    }

    pub fn print(&self) {
        for (form, rules) in ALL.iter().zip(&self.rules) {
            print!("{:10} {:8}  form {}, rule: times", "Report", rules.iter().sum::<usize>(), form.word);
            for (rule, times) in rules.iter().enumerate() {
                print!("  {rule}: {times}");
            }
            println!();
        }
        println!("{:19}  of maps from n up: {}", "", self.behind);
    }

    /// The rules that were never told of a pack of a form that has them.
    pub fn missed(&self) -> Vec<String> {
        let of_form = |(form, rules): (&Form, &[usize; RULES])| {
            let never = (0..RULES).filter(|&rule| rules[rule] == 0 && (rule != MAP || form.has_map));
            never.map(|rule| format!("rule {rule} of a report in form {}", form.word)).collect::<Vec<_>>()
        };
        let behind = (self.behind == 0).then(|| String::from("a fault of a map from n up"));
        ALL.iter().zip(&self.rules).flat_map(of_form).chain(behind).collect()
    }
}
