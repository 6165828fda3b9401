//! The names of a layout's columns (Specification, Cells).

/// The direction of a column of a layout with so many; a column past them has none.
pub fn direction(column: usize, lanes: usize) -> Option<&'static str> {
    let directions: &[_] = match lanes {
        6 => &["left", "up-left", "down", "up", "up-right", "right"],
        _ => &["left", "down", "up", "right"],
    };
    (column < lanes).then(|| directions[column % directions.len()])
}

/// The number of a column, and its direction where it has one.
pub fn label(column: usize, lanes: usize) -> String {
    match direction(column, lanes) {
        Some(direction) => format!("{column} {direction}"),
        None => column.to_string(),
    }
}

/// The direction of a column where no other of the layout has it, else its number.
pub fn name(column: usize, lanes: usize) -> String {
    match direction(column, lanes) {
        Some(direction) if [4, 6].contains(&lanes) => direction.to_owned(),
        _ => column.to_string(),
    }
}

#[cfg(test)]
mod tests {
    use super::*;
    use crate::figures::Figures;

    #[test]
    fn directions_are_the_librarys() {
        for lanes in [4, 5, 6, 8, 10] {
            for column in 0..lanes {
                let mut row = vec![b'0'; lanes];
                row[column] = b'1';
                let figures = Figures::of(&row, lanes).unwrap();
                let mut fields = figures.tally().filter(|(_, count)| *count == 1);
                let wanted = direction(column, lanes).unwrap().replace('-', "_");
                assert!(
                    fields.any(|(name, _)| name == wanted),
                    "{column} of {lanes}"
                );
            }
        }
    }

    #[test]
    fn a_name_is_one_columns_alone() {
        for lanes in [4, 5, 6, 8, 10] {
            let mut names: Vec<_> = (0..lanes).map(|column| name(column, lanes)).collect();
            names.sort();
            names.dedup();
            assert_eq!(names.len(), lanes);
        }
        assert_eq!([name(2, 4), name(6, 8), name(4, 4)], ["up", "6", "4"]);
        assert_eq!([label(4, 6), label(6, 6)], ["4 up-right", "6"]);
    }
}
