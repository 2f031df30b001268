$records 'BEGIN a'
