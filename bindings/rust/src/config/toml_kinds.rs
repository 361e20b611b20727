use crate::display::choices;

choices! {
    /// The types of TOML.
    ///
    /// ```
    /// use iox2sd::config::TomlType;
    /// assert_eq!(TomlType::Datetime.to_string(), "Datetime");
    /// ```
    TomlType of u32 in "config" {
        /// A text.
        String = IOX2SD_TOML_STRING;
        /// An integer.
        Integer = IOX2SD_TOML_INTEGER;
        /// A number with a fraction.
        Float = IOX2SD_TOML_FLOAT;
        /// `true` or `false`.
        Boolean = IOX2SD_TOML_BOOLEAN;
        /// A date, a time or both.
        Datetime = IOX2SD_TOML_DATETIME;
        /// A list of values.
        Array = IOX2SD_TOML_ARRAY;
        /// Values under keys.
        Table = IOX2SD_TOML_TABLE;
    }
}

choices! {
    /// What the value of a key may be.
    ///
    /// ```
    /// use iox2sd::config::SettingKind;
    /// assert_eq!(SettingKind::FileName.to_string(), "FileName");
    /// ```
    #[non_exhaustive]
    SettingKind of u32 in "config" {
        /// A table of settings.
        Table = IOX2SD_KIND_TABLE;
        /// An integer from 0 to 2^63 - 1.
        Number = IOX2SD_KIND_NUMBER;
        /// A boolean.
        Flag = IOX2SD_KIND_FLAG;
        /// A text that is a path.
        Path = IOX2SD_KIND_PATH;
        /// A text that is the name of a file.
        FileName = IOX2SD_KIND_FILE_NAME;
        /// The name of a `BackpressureStrategy`.
        Backpressure = IOX2SD_KIND_BACKPRESSURE;
        /// The name of an `AllocationStrategy`.
        Allocation = IOX2SD_KIND_ALLOCATION;
        /// A table of the integers `secs` and `nanos`, and nothing else.
        Duration = IOX2SD_KIND_DURATION;
    }
}

choices! {
    /// How a known key is like one that no setting has.
    ///
    /// ```
    /// use iox2sd::config::Likeness;
    /// assert_eq!(Likeness::OtherTable.to_string(), "OtherTable");
    /// ```
    Likeness of u32 in "config" {
        /// It is the same but for `-`, `_` and the case of letters.
        Spelling = IOX2SD_LIKENESS_SPELLING;
        /// It is a key of another table, and the same but for `-`, `_` and the case of letters.
        OtherTable = IOX2SD_LIKENESS_OTHER_TABLE;
        /// Its path stands in quotes.
        Quoted = IOX2SD_LIKENESS_QUOTED;
        /// It is the nearest key of the table.
        Near = IOX2SD_LIKENESS_NEAR;
    }
}
