; Where an image ends: it stands still at FFF0 if it is content, and at FFF3 if not.
        .export success, failure

        .segment "STANDS"
success: jmp    success
failure: jmp    failure

; Nobody interrupts; a BRK that nobody meant is a failure.
        .segment "VECTORS"
        .addr   failure, $8000, failure
