//! Rounds of several runners in turns, and a line of the table.

use std::time::Instant;

/// One way of doing a job: runs it `calls` times and answers how many nanoseconds one call took. What must not be timed happens before and after.
pub type Runner<'a> = Box<dyn FnMut() -> f64 + 'a>;

/// Best and median of each runner; none where there is no such runner.
pub type Times = Vec<Option<(f64, f64)>>;

pub fn per_call(calls: u32, mut job: impl FnMut()) -> f64 {
    let start = Instant::now();
    for _ in 0..calls {
        job();
    }
    start.elapsed().as_nanos() as f64 / f64::from(calls)
}

fn best_and_median(mut times: Vec<f64>) -> (f64, f64) {
    times.sort_by(f64::total_cmp);
    (times[0], times[times.len() / 2])
}

/// Runs ours, the limit (where there is one) and the original in turns, and prints their line. Ratios are of the medians.
pub fn compare(what: &str, case: &str, rounds: usize, mut runners: Vec<Option<Runner>>) -> Times {
    let mut times: Vec<Vec<f64>> = runners.iter().map(|_| Vec::new()).collect();
    for _ in 0..rounds {
        for (runner, times) in runners.iter_mut().zip(&mut times) {
            if let Some(run) = runner {
                times.push(run());
            }
        }
    }
    let results: Times = times.into_iter().map(|times| (!times.is_empty()).then(|| best_and_median(times))).collect();
    let ours = results[0].expect("ours is always run").1;
    let beside = results[1..].iter().map(|other| other.map_or("-".into(), |(_, median)| format!("{:.4}", ours / median)));
    line(what, case, &results, 0, beside.collect());
    results
}

/// A line of the times of one job divided by those of another, runner by runner.
pub fn ratios(what: &str, case: &str, part: &Times, whole: &Times) {
    let divide = |(part, whole): (&(f64, f64), &(f64, f64))| (part.0 / whole.0, part.1 / whole.1);
    let results: Times = part.iter().zip(whole).map(|(part, whole)| part.as_ref().zip(whole.as_ref()).map(divide)).collect();
    line(what, case, &results, 3, vec!["-".into(); results.len() - 1]);
}

fn line(what: &str, case: &str, results: &Times, digits: usize, beside: Vec<String>) {
    let mut line = vec![what.to_string(), case.to_string()];
    for result in results {
        match result {
            Some((best, median)) => line.extend([format!("{best:.digits$}"), format!("{median:.digits$}")]),
            None => line.extend(["-".into(), "-".into()]),
        }
    }
    line.extend(beside);
    println!("{}", line.join("\t"));
}
