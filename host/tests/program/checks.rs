//! `taripomune verify`, `total` and `demo`.

use crate::support::*;
use std::fs;
use std::process::Command;
use taripomune::P;

fn verify(folder: &Folder, values: &[u32], coefficients: &[u32]) -> Ended {
    fs::write(folder.path("values"), bytes(values)).unwrap();
    fs::write(folder.path("coefficients"), bytes(coefficients)).unwrap();
    ended(program().args(["verify", "values", "coefficients"]).current_dir(folder.path("")))
}

#[test]
fn the_coefficients_of_the_values_are_accepted_and_no_others() {
    let folder = Folder::new("verify");
    for log_size in [1, 2, 5, 12] {
        let values = column(log_size, 3);
        let coefficients = interpolated(&values);
        let same = verify(&folder, &values, &coefficients);
        assert_eq!((same.status, same.told.as_str()), (Some(0), ""));
        assert_eq!(same.said, "yes: these coefficients give these values\n");
        for position in [0, 1, values.len() / 2, values.len() - 1] {
            // Another value of one card, and the first card that it shows at.
            let mut other = values.clone();
            other[position] = (other[position] + 1) % P;
            let [expected, found] = [values[position], other[position]];
            let sentence =
                format!("no: at position {position} the coefficients give {expected}, the values have {found}\n");
            let ended = verify(&folder, &other, &coefficients);
            assert_eq!((ended.status, ended.said), (Some(6), sentence));
            let mut other = coefficients.clone();
            other[position] = (other[position] + 1) % P;
            assert_eq!(verify(&folder, &values, &other).status, Some(6));
        }
        // Of two cards the first one is told.
        let mut other = values.clone();
        other[0] = (other[0] + 1) % P;
        other[1] = (other[1] + 1) % P;
        assert!(verify(&folder, &other, &coefficients).said.starts_with("no: at position 0 "));
        if log_size > 1 {
            assert_eq!(verify(&folder, &values, &values).status, Some(6));
        }
    }
}

#[test]
fn files_that_are_no_columns_verify_nothing() {
    let folder = Folder::new("verify-refused");
    let (values, coefficients) = (column(3, 1), interpolated(&column(3, 1)));
    let refused = [
        (damaged(3, 5), coefficients.clone(), "values: number 1, position 5"),
        (values.clone(), damaged(3, 2), "coefficients: number 1, position 2"),
        (damaged(3, 7), damaged(3, 0), "values: number 1, position 7"),
        (values.clone(), column(2, 1), "coefficients: number 8, position 0"),
        (values.clone(), column(4, 1), "coefficients: number 8, position 0"),
        (values[..3].to_vec(), coefficients.clone(), "values: number 8, position 0"),
        (values[..1].to_vec(), coefficients[..1].to_vec(), "values: number 6, position 0"),
    ];
    for (values, coefficients, sentence) in refused {
        let ended = verify(&folder, &values, &coefficients);
        assert_eq!((ended.status, ended.said.as_str()), (Some(3), ""));
        assert!(ended.told.starts_with(&format!("taripomune: {sentence}")), "{}", ended.told);
    }
    let missing = ended(program().args(["verify", "values", "missing"]).current_dir(folder.path("")));
    assert_eq!(missing.status, Some(3), "the values are refused first");
    fs::write(folder.path("values"), bytes(&values)).unwrap();
    let missing = ended(program().args(["verify", "values", "missing"]).current_dir(folder.path("")));
    assert_eq!(missing.status, Some(4));
}

fn total(folder: &Folder, values: &[u32]) -> Ended {
    fs::write(folder.path("values"), bytes(values)).unwrap();
    ended(program().args(["total", "values"]).current_dir(folder.path("")))
}

#[test]
fn a_total_is_exact_and_modulo_p() {
    let folder = Folder::new("total");
    let most = vec![P - 1; 1 << 10];
    for values in [vec![1250, 0, 730, 2020], vec![0, 0], most, column(12, 7)] {
        let log_size = values.len().ilog2();
        let exact: u64 = values.iter().map(|word| u64::from(*word)).sum();
        let modulo_p = exact % u64::from(P);
        let ended = total(&folder, &values);
        assert_eq!((ended.status, ended.told.as_str()), (Some(0), ""));
        let said =
            format!("total: {exact}\ntotal modulo P: {modulo_p}\n2^{log_size} times coefficient 0: {modulo_p}\n");
        assert_eq!(ended.said, said);
    }
    let refused = total(&folder, &damaged(3, 4));
    assert_eq!((refused.status, refused.said.as_str()), (Some(3), ""));
    assert!(refused.told.contains("number 1, position 4"), "{}", refused.told);
}

#[test]
fn a_file_that_is_another_one_at_the_second_look_has_no_total() {
    // Its words are added up after it was interpolated: what is written to it meanwhile must not come into the total.
    let folder = Folder::new("total-changed");
    let values = folder.path("values");
    fs::File::create(&values).unwrap().set_len(4 << 22).unwrap();
    let mut shell = Command::new("sh");
    let script = "while :; do printf '\\001' 1<>values; done";
    let modified = || fs::metadata(&values).unwrap().modified().unwrap();
    let before = modified();
    let writer = Background::start(shell.args(["-c", script]).current_dir(folder.path("")));
    wait_until("it is written to", || modified() > before);
    let ended = ended(program().args(["total", "values"]).current_dir(folder.path("")));
    drop(writer);
    assert_eq!((ended.status, ended.said.as_str()), (Some(4), ""));
    assert!(ended.told.contains("it changed while it was read"), "{}", ended.told);
}

#[test]
fn the_demonstration_is_right_and_says_why_coefficient_0_matters() {
    let ended = ended(program().arg("demo"));
    assert_eq!((ended.status, ended.told.as_str()), (Some(0), ""));
    let said = ended.said;
    assert!(said.contains("The total is the number that gets booked."), "{said}");
    assert!(said.ends_with("All 24 columns returned, and each total is 2^20 times coefficient 0.\n"), "{said}");
}
