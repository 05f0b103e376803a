//! How often each code of each request was reached on packs of each form, and each status; and how many files a Finish deleted.

use crate::call::{Call, Said};
use crate::request::{Request, ALL};
use model::pack::form::{self, Form};
use std::collections::BTreeMap;

#[derive(Default)]
pub struct Tally {
    /// By form, request and code.
    codes: BTreeMap<(u16, usize, usize), usize>,
    /// By form, request, mode and status.
    statuses: BTreeMap<(u16, usize, usize, usize), usize>,
    most_finished: usize,
}

fn index(request: Request) -> usize {
    ALL.iter().position(|&other| other == request).expect("it was drawn from all")
}

impl Tally {
    /// Counts a call that was drawn for a pack of a form, or to make one.
    pub fn count(&mut self, form: Form, call: &Call, answer: &Said) {
        let request = index(call.request);
        *self.codes.entry((form.word, request, answer[0])).or_default() += 1;
        if let Some((mode, status)) = call.status(answer) {
            *self.statuses.entry((form.word, request, mode, status)).or_default() += 1;
        }
        if call.request == Request::Finish {
            self.most_finished = self.most_finished.max(answer[1]);
        }
    }

    fn times(&self, form: Form, request: Request, code: usize) -> usize {
        self.codes.get(&(form.word, index(request), code)).copied().unwrap_or(0)
    }

    fn times_of_status(&self, form: Form, request: Request, mode: usize, status: usize) -> usize {
        self.statuses.get(&(form.word, index(request), mode, status)).copied().unwrap_or(0)
    }

    /// Prints how often each was reached on packs of all forms.
    pub fn print(&self) {
        println!("{:10} {:>8}  octal code: times", "request", "calls");
        for &request in ALL {
            self.print_request(request);
        }
        println!("{:19}  most files of a Finish: {}", "", self.most_finished);
        for form in form::ALL {
            let calls: usize = self.codes.range((form.word, 0, 0)..(form.word + 1, 0, 0)).map(|(_, times)| times).sum();
            println!("{:10} {calls:8}  beside a pack of form {}", "", form.word);
        }
    }

    fn print_request(&self, request: Request) {
        let all = |times: &dyn Fn(Form) -> usize| form::ALL.iter().map(|&form| times(form)).sum::<usize>();
        let codes = request.codes().iter().map(|&code| (code, all(&|form| self.times(form, request, code))));
        let calls: usize = codes.clone().map(|(_, times)| times).sum();
        print!("{:10} {calls:8}", format!("{request:?}"));
        for (code, times) in codes {
            print!("  {code:02o}: {times}");
        }
        println!();
        for (mode, statuses) in request.statuses().into_iter().enumerate().filter(|(_, all)| !all.is_empty()) {
            print!("{:19}  mode {mode}, status: times", "");
            for &status in statuses {
                print!("  {status}: {}", all(&|form| self.times_of_status(form, request, mode, status)));
            }
            println!();
        }
    }

    /// The codes and statuses that could be reached and were not.
    pub fn missed(&self) -> Vec<String> {
        let mut missed = Vec::new();
        if self.most_finished < 2 {
            missed.push(String::from("a Finish of several files"));
        }
        for &form in form::ALL {
            for &request in ALL {
                missed.extend(self.missed_of(form, request));
            }
        }
        missed
    }

    fn missed_of(&self, form: Form, request: Request) -> Vec<String> {
        let mut missed = Vec::new();
        for &code in request.codes_beside(form).iter().filter(|&&code| self.times(form, request, code) == 0) {
            missed.push(format!("{code:02o} of {request:?} in form {}", form.word));
        }
        for (mode, statuses) in request.statuses().into_iter().enumerate() {
            for &status in statuses.iter().filter(|&&status| self.times_of_status(form, request, mode, status) == 0) {
                missed.push(format!("status {status} of {request:?} in mode {mode}, form {}", form.word));
            }
        }
        missed
    }
}
